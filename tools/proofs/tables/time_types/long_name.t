use Rattle·time_types·proofs.proofs.Names.{is-ltime, is-ldate, is-ldt, is-ltod, no-long-name}
ruleset exits = (is-ltime, is-ldate, is-ldt, is-ltod, no-long-name)
returns.* => search exits

use Rattle·time_types·proofs.proofs.Names.{is-time, is-tod, is-time-of-day, no-time-name}
ruleset exits = (is-time, is-tod, is-time-of-day, no-time-name)
returns.* => search exits

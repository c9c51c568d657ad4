use Rattle·time_types·proofs.proofs.Names.{is-dt, is-date, is-date-and-time, no-date-name}
ruleset exits = (is-dt, is-date, is-date-and-time, no-date-name)
returns.* => search exits

use Rattle·time_calendar·proofs.proofs.Months.{even-leap-early, even-leap-late, even-early, even-late}
ruleset exits = (even-leap-early, even-leap-late, even-early, even-late, needs)
returns.* => search exits

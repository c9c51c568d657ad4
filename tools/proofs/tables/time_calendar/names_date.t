use Rattle·time_calendar·proofs.proofs.Dates.{names-before, names-no-day, names-by-month}
returns.* => search (names-before, names-no-day, names-by-month, needs)

use Rattle·time_calendar·proofs.proofs.Dates.{start-before, in-year-few, first-before, date-of-is}
returns.* => search (date-of-is, needs)
.* => search (start-before, in-year-few, first-before, needs)

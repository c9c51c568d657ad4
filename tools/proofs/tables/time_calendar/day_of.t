use Rattle·time_calendar·proofs.proofs.Dates.{day-since, day-first, day-month-lo, day-month-hi, day-of-is, day-start-fits, day-sum-fits}
returns.* => search (day-of-is, needs)
add-result.* => record { fits = search (day-start-fits, day-sum-fits, needs) }
.* => search (day-since, day-first, day-month-lo, day-month-hi, needs)

use Rattle·time_calendar·proofs.proofs.Years.{year-of-is, year-of-fits}
returns.* => search (year-of-is, needs)
add-result-4 => record { fits = search (year-of-fits, needs) }

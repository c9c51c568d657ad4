use Rattle·time_calendar·proofs.proofs.Years.{year-start-is, year-start-enough}
sub-result-2 => search (year-start-enough, needs)
returns.* => search (year-start-is, needs)

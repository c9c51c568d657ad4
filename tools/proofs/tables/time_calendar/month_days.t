use Rattle·time_calendar·proofs.proofs.Months.{days-none, days-other, days-february, days-not-february}
returns.* => search (days-none, days-other, days-february, days-not-february, needs)

use Rattle·time_calendar·proofs.proofs.Months.{start-few, start-other, start-late, start-early}
add-result => record { fits = search (start-few, needs) }
returns.* => search (start-other, start-late, start-early, needs)

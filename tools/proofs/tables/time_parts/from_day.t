use Rattle·time_parts·proofs.proofs.Exits.{day-late, sum-late, sum-told}
returns.* => search (day-late, sum-late, sum-told, needs)
.* => search needs

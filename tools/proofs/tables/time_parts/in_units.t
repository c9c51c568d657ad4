use Rattle·time_parts·proofs.proofs.Exits.{units-refused, units-left, units-late, units-told}
returns.* => search (units-refused, units-left, units-late, units-told, needs)
.* => search needs

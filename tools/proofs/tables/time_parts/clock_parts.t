use Rattle·time_parts·proofs.proofs.Exits.{clock-parts-is}
returns.* => search (clock-parts-is, needs)
.* => search needs

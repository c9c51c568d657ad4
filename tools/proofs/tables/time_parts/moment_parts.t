use Rattle·time_parts·proofs.proofs.Exits.{moment-parts-is}
returns.* => search (moment-parts-is, needs)
.* => search needs

use Rattle·time_parts·proofs.proofs.Exits.{parts-at-is}
returns.* => search (parts-at-is, needs)
.* => search needs

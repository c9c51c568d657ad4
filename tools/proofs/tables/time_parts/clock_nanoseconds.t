use Rattle·time_parts·proofs.proofs.Exits.{clock-ok, clock-dated, clock-unnamed, clock-told}
returns.* => search (clock-dated, clock-unnamed, clock-told, needs)
.* => search (clock-ok, needs)

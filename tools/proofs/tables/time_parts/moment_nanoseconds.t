use Rattle·time_parts·proofs.proofs.Exits.{clock-ok, clock-short, date-ok, moment-late, moment-undated, moment-unnamed, moment-by}
returns.* => search (moment-late, moment-undated, moment-unnamed, moment-by, needs)
.* => search (date-ok, clock-ok, clock-short, needs)

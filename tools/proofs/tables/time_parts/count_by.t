use Rattle·time_parts·proofs.proofs.Exits.{count-time, count-ltime, count-none, count-tod, count-ltod, count-dt, count-ldt}
returns.* => search (count-time, count-ltime, count-none, count-tod, count-ltod, count-dt, count-ldt)
.* => search needs

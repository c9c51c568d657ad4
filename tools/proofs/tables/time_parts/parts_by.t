use Rattle·time_parts·proofs.proofs.Exits.{parts-time, parts-ltime, parts-none, parts-tod, parts-tod-late, parts-ltod, parts-ltod-late, parts-dt, parts-dt-late, parts-ldt}
returns.* => search (parts-time, parts-ltime, parts-none, parts-tod, parts-tod-late, parts-ltod, parts-ltod-late, parts-dt, parts-dt-late, parts-ldt, needs)
.* => search needs

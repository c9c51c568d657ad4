use Rattle·resolve_field_plan·proofs.proofs.Plans.{note-here, note-past, note-fits}
ruleset exits = (note-here, note-past)
add-plan-2 => search note-fits
returns.* => search exits
.* => search needs

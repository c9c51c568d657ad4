use Rattle·type_marks·proofs.proofs.Laws.{set-part-is, set-part-inside}
set-bit-requires => search set-part-inside
returns => search set-part-is
.* => search needs

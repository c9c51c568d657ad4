use Rattle·type_marks·proofs.proofs.Laws.{set-bit-is}
returns => search set-bit-is
.* => search needs

use Rattle·type_marks·proofs.proofs.Laws.{part-bit-is}
returns => search part-bit-is
.* => search needs

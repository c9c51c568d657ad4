use Rattle·type_marks·proofs.proofs.Laws.{bit-is, bit-past}
returns => search bit-is
returns-2 => search bit-past
.* => search needs

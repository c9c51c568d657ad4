use Rattle·type_marks·proofs.proofs.Laws.{joined-is}
returns => search joined-is
.* => search needs

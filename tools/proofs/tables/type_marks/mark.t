use Rattle·type_marks·proofs.proofs.Laws.{mark-is}
returns => search mark-is
.* => search needs

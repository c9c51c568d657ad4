use Rattle·type_marks·proofs.proofs.Laws.{mixed-is}
returns => search mixed-is
.* => search needs

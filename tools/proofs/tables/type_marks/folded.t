use Rattle·type_marks·proofs.proofs.Laws.{folded-is}
returns => search folded-is
.* => search needs

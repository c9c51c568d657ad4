use Rattle·type_marks·proofs.proofs.Laws.{marked-upper, marked-middle, marked-lower}
returns => search marked-upper
returns-2 => search marked-middle
returns-3 => search marked-lower
.* => search needs

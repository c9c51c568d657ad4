use Rattle·type_marks·proofs.proofs.Laws.{product-fits, slot-inside, slot-in-is}
mul-result => search product-fits
cast-result => search slot-inside
returns => search slot-in-is
.* => search needs

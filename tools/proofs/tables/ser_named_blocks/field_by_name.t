use Rattle·ser_named_blocks·proofs.proofs.Names.{field-is}
returns => search field-is
.* => search needs

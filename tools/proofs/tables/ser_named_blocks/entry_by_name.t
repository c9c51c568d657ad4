use Rattle·ser_named_blocks·proofs.proofs.Names.{entry-is}
returns => search entry-is
.* => search needs

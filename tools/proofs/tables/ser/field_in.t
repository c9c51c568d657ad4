use Rattle·ser·proofs.proofs.Exits.{field-found, field-lacks, field-endless}
ruleset exits = (field-found, field-lacks, field-endless)
returns.* => search exits
.* => search needs

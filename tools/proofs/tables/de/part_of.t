use Rattle·de·proofs.proofs.Exits.{part-lacks, part-endless, part-over, part-value}
ruleset exits = (part-lacks, part-endless, part-over, part-value)
returns.* => search exits
.* => search needs

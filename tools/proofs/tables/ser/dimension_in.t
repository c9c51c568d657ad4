use borrow.Author.Needs.{needs}
use Rattle·ser·proofs.proofs.Exits.{dimension-lacks, dimension-endless, dimension-end, dimension-other, dimension-array}
ruleset exits = (dimension-lacks, dimension-endless, dimension-end, dimension-other, dimension-array)
returns.* => search exits
.* => search needs

use borrow.Author.Needs.{needs}
use Rattle·ser_first_fields·proofs.proofs.Laws.{block-at, block-none}
ruleset exits = (block-at, block-none)
returns.* => search exits
.* => search needs

use borrow.Author.Needs.{needs}
use Rattle·ser_first_fields·proofs.proofs.Laws.{named-first, named-searched}
ruleset exits = (named-first, named-searched)
returns.* => search exits
.* => search needs

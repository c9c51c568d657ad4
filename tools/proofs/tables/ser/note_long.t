use borrow.Author.Needs.{needs}
use Rattle·ser_first_fields.proofs.Laws.{firsts-none}
use Rattle·ser·proofs.proofs.Exits.{leaf-inside}
note-firsts-requires => search leaf-inside
returns-2 => search firsts-none
.* => search needs

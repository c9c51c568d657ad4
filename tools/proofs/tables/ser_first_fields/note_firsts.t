use borrow.Author.Needs.{needs}
use Rattle·ser_first_fields·proofs.proofs.Laws.{firsts-none, enough-bits}
note-few-requires => (search needs, search enough-bits, search firsts-none)
note-many-requires => (search needs, search enough-bits, search firsts-none)
returns => search firsts-none
.* => search needs

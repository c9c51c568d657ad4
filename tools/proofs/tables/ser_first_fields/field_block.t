use borrow.Author.Needs.{needs}
use Rattle·ser_first_fields·proofs.proofs.Laws.{block-named}
returns.* => search block-named
.* => search needs

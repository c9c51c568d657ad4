use borrow.Author.Needs.{needs}
use Rattle·ser_first_fields·proofs.proofs.Laws.{note-other, note-marked, note-new}
returns => search note-other
returns-2 => search note-marked
returns-3 => search note-new
.* => search needs

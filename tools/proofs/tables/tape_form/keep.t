use Rattle·tape_form·proofs.proofs.Findings.{kept}
use borrow.Author.Needs.{needs}
returns-2 => search (needs, kept)
.* => search needs

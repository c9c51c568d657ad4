use Rattle·tape_form·proofs.proofs.Findings.{grown}
use borrow.Author.Needs.{needs}
returns-2 => search (needs, grown)
.* => search needs

use Rattle·tape_form·proofs.proofs.Findings.{later-part, later-found, later-fine, later-broken}
ruleset exits = (later-part, later-fine, later-broken)
use borrow.Author.Needs.{needs}
returns.* => search exits
keep-requires => search (needs, later-found)
.* => search needs

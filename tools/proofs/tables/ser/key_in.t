use borrow.Author.Needs.{needs}
use Rattle·ser·proofs.proofs.Exits.{key-end, key-other, key-unknown, key-known, key-after, key-past, key-entry}
ruleset exits = (key-end, key-other, key-unknown, key-known)
sub-.*-2 => search key-past
sub-.* => search key-after
field-in-requires => (search needs, search key-entry)
returns.* => search exits
.* => search needs

use borrow.Author.Needs.{needs}
use Rattle·ser·proofs.proofs.Exits.{leaf-inside, key-near, key-far}
ruleset exits = (key-near, key-far)
field-named-as-requires => (search leaf-inside, search needs)
field-block-requires => search leaf-inside
returns.* => search exits
.* => search needs

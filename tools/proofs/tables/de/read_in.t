use borrow.Author.Needs.{needs}
use Rattle·de·proofs.proofs.Wholes.{typed-root, root-base, root-lacks, root-endless}
use Rattle·de·proofs.proofs.Exits.{given-none}
use Rattle·type_category.proofs.Numbers.{category-is}
value-requires => (search needs, search typed-root, search category-is, search given-none)
returns => search (root-base, category-is)
returns-2 => search root-lacks
returns-3 => search root-endless
.* => search needs

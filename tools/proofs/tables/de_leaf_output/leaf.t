use Rattle·de_leaf_output·proofs.proofs.Leaves.{leaf-at}
use Rattle·de_leaves.proofs.Numbers.{leaf-is}
returns => search (leaf-at, leaf-is)

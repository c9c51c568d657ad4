use mathlib.Core.Path.{refl}
use Rattle·de_leaves·proofs.proofs.Leaves.{leaf-count, leaf-number, leaf-text, leaf-enum, leaf-pointer, leaf-unit, leaf-none}
use Rattle·de_leaves·proofs.proofs.Numbers.{leaf-says}
ruleset exits = (leaf-count, leaf-number, leaf-text, leaf-enum, leaf-pointer, leaf-unit, leaf-none, refl)
returns.* => leaf-says _ _ (search exits)

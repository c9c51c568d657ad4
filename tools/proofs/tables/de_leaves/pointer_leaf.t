use mathlib.Core.Path.{refl}
use Rattle·de_leaves·proofs.proofs.Leaves.{pointer-two, pointer-four, pointer-eight, pointer-other}
use Rattle·enc_integer.proofs.Numbers.{integer-read-is}
ruleset exits = (pointer-two, pointer-four, pointer-eight, pointer-other, refl, integer-read-is)
returns.* => search exits

use mathlib.Core.Path.{refl}
use Rattle·de_leaves·proofs.proofs.Leaves.{number-bool, number-real, number-size, number-integer}
use Rattle·enc_integer.proofs.Numbers.{integer-read-is}
use Rattle·enc_float.proofs.Numbers.{real-read-is}
ruleset exits = (number-bool, number-real, number-size, number-integer, refl, integer-read-is, real-read-is)
returns.* => search exits

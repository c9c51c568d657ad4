use mathlib.Core.Path.{refl}
use Rattle·de_leaves·proofs.proofs.Leaves.{enum-size, enum-found, enum-none}
use Rattle·enc_integer.proofs.Numbers.{integer-read-is}
use Rattle·validators.proofs.Validities.{size-is, size-other}
ruleset exits = (enum-size, enum-found, enum-none, refl, integer-read-is, size-is, size-other)
returns.* => search exits

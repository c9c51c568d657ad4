use mathlib.Core.Path.{refl}
use Rattle·enc_utf_8.proofs.Decodes.{more-three, more-on, more-error, more-none}
ruleset exits = (more-on, more-error, more-none, refl, tt)
two-more-requires => search more-three
returns.* => search exits
.* => search needs

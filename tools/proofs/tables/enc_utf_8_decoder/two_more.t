use mathlib.Core.Path.{refl}
use Rattle·enc_utf_8.proofs.Decodes.{more-two, more-on, more-error, more-none}
ruleset exits = (more-on, more-error, more-none, refl, tt)
one-more-requires-2 => search more-two
returns.* => search exits
.* => search needs

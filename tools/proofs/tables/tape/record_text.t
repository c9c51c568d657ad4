use mathlib.Core.Path.{refl}
use Rattle·tape·proofs.proofs.Texts.{text-key, text-enum, text-text, text-none}
ruleset exits = (text-key, text-enum, text-text, text-none, refl)
returns.* => search exits

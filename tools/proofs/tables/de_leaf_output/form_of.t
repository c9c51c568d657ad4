use mathlib.Core.Path.{refl}
use Rattle·de_leaf_output·proofs.proofs.Leaves.{form-known, form-record, form-bool, form-single, form-double, form-text}
ruleset records = (form-record, refl)
returns-3 => search form-bool
returns-4 => search form-single
returns-5 => search form-double
returns-8 => search form-text
returns-11 => search form-known
returns.* => search records
.* => search needs

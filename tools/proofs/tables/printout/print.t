use Rattle·printout·proofs.proofs.Exits.{all-long, all-short, checked-walk, checked-refused}
use native.Mathlib.Omega.{arith}
use Rattle·type_book_check.proofs.Numbers.{root-is}
ruleset exits = (checked-walk, checked-refused, root-is)
returns => all-long _ _ (omega arith) (search needs)
returns.* => all-short _ _ (omega arith) (search exits)

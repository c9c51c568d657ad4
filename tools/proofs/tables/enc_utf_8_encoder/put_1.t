use native.Mathlib.Omega.{arith}
use Rattle·enc_utf_8.proofs.Splices.{wrote-full, stored-1}
returns-2 => stored-1 _ _ _ (omega arith)
returns.* => wrote-full _ _ _ (omega arith) (omega arith)
slice-write-out-.* => simp length-set (omega arith)
.* => search needs

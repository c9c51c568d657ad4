use native.Mathlib.Omega.{arith}
use lib.ListN.{length-set}
use Rattle·enc_utf_8.proofs.Splices.{wrote-full, stored-3}
returns-3 => stored-3 _ _ _ _ _ (omega arith)
returns.* => wrote-full _ _ _ (omega arith) (omega arith)
slice-write-out-.* => simp length-set (omega arith)
.* => search needs

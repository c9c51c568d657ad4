use borrow.Author.Needs.{needs}
use Prim.Native.Nat.{_≤_, _-_}
use lib.ListN.{length, length-set}
use native.Mathlib.Omega.{arith}
use Rattle·tape·proofs.proofs.Records.{Copied, copied-none, copied-more, copied-all}
def Inv-loop => (i ≤ 24) × Copied tape₀ at bytes i tape
def μ-loop => 24 - i
loop-holds => (search needs, search copied-none)
loop-again => (search needs, search copied-more)
slice-write-tape => omega (arith, c .before .loop .inv .1 .long)
same-length => c .before .loop .inv .1 .long
returns => search copied-all
.* => search needs

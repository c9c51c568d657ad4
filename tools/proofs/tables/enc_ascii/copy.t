use borrow.Author.Needs.{needs}
use Prim.Native.Nat.{_+_, _≤_, _-_}
use lib.ListN.{length, drop}
use Rattle·enc_utf_8.proofs.Lays.{Rest}
use Rattle·enc_ascii·proofs.proofs.Copies.{copy-none, copy-past, copy-over, copy-start, copy-again, copy-end}
def Inv-loop => (i ≤ length bytes) × Rest bytes out₀ at (drop i bytes) out (at + i)
def μ-loop => length bytes - i
returns => search copy-none
returns-2 => search copy-past
returns-3 => search copy-over
loop-holds => (search needs, search copy-start)
loop-again => (search needs, search copy-again)
returns-4 => search copy-end
.* => search needs

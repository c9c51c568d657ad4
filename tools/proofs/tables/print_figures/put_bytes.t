use borrow.Author.Needs.{needs}
use mathlib.Core.Path.{_≡_, refl}
use Prim.Native.Nat.{_≤_, _-_}
use lib.ListN.{length, drop}
use Rattle·print_figures·proofs.proofs.Joins.{Rest, rest-all, bytes-again, bytes-end}
def Inv-loop => (i ≤ length bytes) × (length out ≡ length out₀) × Rest bytes out₀ next₀ (drop i bytes) out next
def μ-loop => length bytes - i
loop-holds => (search needs, refl, rest-all refl)
loop-again => (search needs, search needs, search bytes-again)
returns => search bytes-end
.* => search needs

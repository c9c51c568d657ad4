use borrow.Author.Needs.{needs}
use borrow.Author.Fill.{fill-more}
use mathlib.Core.Path.{_≡_, refl, ap, _∙_}
use mathlib.Core.List.{List, _++_, append-nil}
use Prim.Native.Nat.{ℕ, _≤_, _-_}
use native.Mathlib.Omega.{arith}
use lib.ListN.{length, replicate, drop, set, length-set}
use lib.Seq.{drop-length}
def Inv-loop => (i ≤ length numbers) × (numbers ≡ replicate i 0 ++ drop i numbers₀) × (length numbers ≡ length numbers₀)
def μ-loop => length numbers - i
loop-holds => (search needs, refl, refl)
loop-less => simp length-set (omega arith)
loop-again => let i = c .before .loop .i in let inv = c .before .loop .inv in (simp length-set (omega arith), ap (λ (l : List ℕ). set l i 0) (inv .1) ∙ fill-more i 0 (c .before .before .args .numbers .now) (omega arith), simp length-set (inv .2))
same-length => c .before .loop .inv .2
returns => let e : c .before .loop .i ≡ length (c .before .before .args .numbers .now) = omega arith in c .before .loop .inv .1 ∙ rw (e, drop-length, append-nil)
.* => search needs

use borrow.Author.Needs.{needs}
use mathlib.Core.Path.{_≡_}
use Prim.Native.Nat.{_-_, _≤_}
use Rattle·type_marks·specs.specs.Marks.{withParts}
use Rattle·type_marks·proofs.proofs.Laws.{hash-short, parts-start, parts-again, hash-end}
def Inv-loop => (i ≤ k) × (withParts name h i (k - i) ≡ withParts name n 0 k)
def μ-loop => k - i
loop-holds => (search needs, search parts-start)
loop-again => (search needs, search parts-again)
returns => search hash-short
returns-2 => search hash-end
.* => search needs

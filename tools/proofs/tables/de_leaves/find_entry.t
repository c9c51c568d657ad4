use borrow.Author.Needs.{needs}
use mathlib.Core.Path.{_≡_}
use Prim.Native.Nat.{_+_, _-_, _≤_}
use Rattle·de_leaves·specs.specs.Leaf.{entryFrom}
use Rattle·de_leaves·proofs.proofs.Leaves.{entry-start, entry-here, entry-again, entry-none}
def Inv-loop => (i ≤ k) × (entryFrom book bytes n k ≡ entryFrom book bytes (n + i) (k - i))
def μ-loop => k - i
loop-holds => (search needs, search entry-start)
loop-again => (search needs, search entry-again)
returns => search entry-here
returns-2 => search entry-none
.* => search needs

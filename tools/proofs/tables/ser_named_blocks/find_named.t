use borrow.Author.Needs.{needs}
use mathlib.Core.Path.{_≡_}
use Prim.Native.Nat.{_+_, _-_, _≤_}
use Rattle·ser_named_blocks·specs.specs.Named.{namedFrom}
use Rattle·ser_named_blocks·proofs.proofs.Names.{named-start, named-here, named-again, named-none}
def Inv-loop => (i ≤ k) × (namedFrom book name n k ≡ namedFrom book name (n + i) (k - i))
def μ-loop => k - i
loop-holds => (search needs, search named-start)
loop-again => (search needs, search named-again)
returns => search named-here
returns-2 => search named-none
.* => search needs

use borrow.Author.Needs.{needs}
use mathlib.Core.Path.{_≡_}
use Prim.Native.Nat.{_*_, _-_, _≤_, _<_}
use lib.ListN.{length}
use Rattle·ser_first_fields·specs.specs.Firsts.{Met, Firsts}
use Rattle·ser_first_fields·proofs.proofs.Laws.{met-none, noted-met, noted-firsts}
def Inv-loop => (i ≤ n) × (length names ≡ length names₀) × (length firsts ≡ length firsts₀) × Met book t k c names i × Firsts book t firsts
def μ-loop => n - i
loop-holds => (search needs, search needs, search needs, search met-none, search needs)
loop-again => (search needs, search needs, search needs, search noted-met, search noted-firsts)
.* => search needs

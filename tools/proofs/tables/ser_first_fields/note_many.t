use borrow.Author.Needs.{needs}
use mathlib.Core.Path.{_≡_}
use Prim.Native.Nat.{_-_}
use lib.ListN.{length}
use Rattle·ser_first_fields·specs.specs.Firsts.{Firsts}
def Inv-loop => (length firsts ≡ length firsts₀) × Firsts book t firsts
def μ-loop => k - c
.* => search needs

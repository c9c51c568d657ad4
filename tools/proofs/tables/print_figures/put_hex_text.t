use borrow.Author.Needs.{needs}
use mathlib.Core.Path.{_≡_, refl}
use Prim.Native.Nat.{_≤_, _-_}
use lib.ListN.{length, drop}
use Rattle·print_figures·specs.specs.Figures.{hexText}
use Rattle·print_figures·proofs.proofs.Joins.{Rest, rest-all}
use Rattle·print_figures·proofs.proofs.Numerals.{hexes-again, hexes-end}
def Inv-loop => (i ≤ length text) × (length out ≡ length out₀) × Rest (hexText text) out₀ next₀ (hexText (drop i text)) out next
def μ-loop => length text - i
loop-holds => (search needs, refl, rest-all refl)
loop-again => (search needs, search needs, search hexes-again)
returns => search hexes-end
.* => search needs

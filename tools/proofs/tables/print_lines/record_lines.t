use borrow.Author.Needs.{needs}
use mathlib.Core.Path.{_≡_, refl}
use lib.ListN.{length}
use Rattle·print_lines·specs.specs.Lines.{linesOf, recordsAt}
use Rattle·print_figures.proofs.Joins.{Rest}
use Rattle·print_lines·proofs.proofs.Prints.{lines-start, lines-again, lines-over, lines-done}
def Inv-loop => (length out ≡ length out₀) × Rest (linesOf book text (recordsAt tape records 0)) out₀ next₀ (linesOf book text (recordsAt tape left (cursor .at))) out next
def μ-loop => left
loop-holds => (refl, search lines-start)
loop-again => (search needs, search lines-again)
returns => search lines-over
returns-2 => search lines-done
.* => search needs

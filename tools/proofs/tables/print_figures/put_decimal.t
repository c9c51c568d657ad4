use borrow.Author.Needs.{needs}
use native.Mathlib.Omega.{arith}
use Rattle·print_figures·proofs.proofs.Numerals.{digit-last, digit-more}
def μ-put-decimal => a .1 .0
put-decimal-returns => search digit-last
put-decimal-returns-2 => search digit-more
put-decimal-put-decimal-requires => omega arith
.* => search needs

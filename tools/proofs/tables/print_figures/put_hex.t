use borrow.Author.Needs.{needs}
use native.Mathlib.Omega.{arith}
use Rattle·print_figures·proofs.proofs.Numerals.{hex-none, hex-more}
def μ-put-hex => a .1 .0
put-hex-returns => search hex-none
put-hex-returns-2 => search hex-more
put-hex-put-hex-requires => omega arith
.* => search needs

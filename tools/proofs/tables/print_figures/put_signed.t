use Rattle·print_figures·proofs.proofs.Numerals.{signed-plus, signed-minus}
returns => search signed-plus
returns-2 => search signed-minus

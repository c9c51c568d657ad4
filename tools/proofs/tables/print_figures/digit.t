use Rattle·print_figures·proofs.proofs.Numerals.{glyph-low, glyph-high}
returns => search glyph-low
returns-2 => search glyph-high

use Rattle·print_record_line·proofs.proofs.Prints.{bool-line, signed-line, unsigned-line, single-line, double-line, no-line}
returns => search bool-line
returns-2 => search signed-line
returns-3 => search unsigned-line
returns-4 => search single-line
returns-5 => search double-line
returns-6 => search no-line

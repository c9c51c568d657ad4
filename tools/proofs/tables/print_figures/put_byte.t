use Rattle·print_figures·proofs.proofs.Joins.{byte-over, byte-put, puts-full}
returns => search byte-over
returns-2 => search byte-put
returns-3 => search puts-full

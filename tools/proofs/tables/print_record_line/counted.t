use Rattle·print_record_line·proofs.proofs.Prints.{counted-put}
returns => search counted-put

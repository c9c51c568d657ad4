use Rattle·print_record_line·proofs.proofs.Prints.{named-put}
returns => search named-put

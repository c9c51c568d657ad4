use Rattle·print_record_line·proofs.proofs.Prints.{sized-put}
returns => search sized-put

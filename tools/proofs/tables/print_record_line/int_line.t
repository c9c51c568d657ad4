use Rattle·print_record_line·proofs.proofs.Prints.{int-put}
returns => search int-put

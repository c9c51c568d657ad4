use Rattle·print_record_line·proofs.proofs.Prints.{real-put}
returns => search real-put

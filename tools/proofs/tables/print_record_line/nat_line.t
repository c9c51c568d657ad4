use Rattle·print_record_line·proofs.proofs.Prints.{nat-put}
returns => search nat-put

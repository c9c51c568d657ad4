use Rattle·print_lines·proofs.proofs.Prints.{head-put}
returns => search head-put

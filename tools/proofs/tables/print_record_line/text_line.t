use borrow.Author.Needs.{needs}
use Rattle·print_record_line·proofs.proofs.Prints.{text-alone, text-put}
returns => search text-alone
returns-2 => search text-put
.* => search needs

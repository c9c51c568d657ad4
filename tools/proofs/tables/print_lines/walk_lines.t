use Rattle·print_lines·proofs.proofs.Prints.{walk-printed}
use borrow.Author.Needs.{needs}
ruleset printing = (walk-printed, needs)
returns => search printing

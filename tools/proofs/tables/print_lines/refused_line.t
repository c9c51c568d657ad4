use Rattle·print_lines·proofs.proofs.Prints.{refused-printed}
use borrow.Author.Needs.{needs}
ruleset printing = (refused-printed, needs)
returns => search printing

use borrow.Author.Needs.{needs}
use Rattle·time_calendar·proofs.proofs.Years.{leap-hundred, leap-other}
returns.* => search (leap-hundred, leap-other, needs)

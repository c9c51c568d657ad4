use borrow.Author.Needs.{needs}
use Rattle·time_parts·proofs.proofs.Exits.{some-year, some-month, by-day}
returns.* => search (some-year, some-month, by-day, needs)

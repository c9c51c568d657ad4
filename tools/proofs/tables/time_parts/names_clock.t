use borrow.Author.Needs.{needs}
use Rattle·time_parts·proofs.proofs.Clock.{no-hour, no-minute, no-second, by-nanosecond}
returns.* => search (no-hour, no-minute, no-second, by-nanosecond, needs)

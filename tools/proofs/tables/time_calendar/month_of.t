use native.Mathlib.Omega.{arith}
use borrow.Author.Needs.{needs}
use Rattle·time_calendar·proofs.proofs.Months.{month-of-is, day-of-year-few, even-few}
returns.* => search (month-of-is, needs)
.*requires => search (day-of-year-few, needs)
(mul|add)-result => omega (arith, even-few _ _ _ (c .even-day .ensures) (c .before .pre))

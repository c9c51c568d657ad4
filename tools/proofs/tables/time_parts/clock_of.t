use native.Mathlib.Omega.{arith}
use Rattle·time_parts·proofs.proofs.Clock.{hours-few, minutes-few, seconds-few, nanoseconds-few, clock-of-is}
returns.* => search (clock-of-is, needs)
mul-result => omega (arith, hours-few _ (c .before .before .before .pre), minutes-few _ (c .before .before .before .pre), seconds-few _ (c .before .before .before .pre))
add-result => omega (arith, hours-few _ (c .before .before .before .before .pre), minutes-few _ (c .before .before .before .before .pre), seconds-few _ (c .before .before .before .before .pre), nanoseconds-few _ (c .before .before .before .before .pre))
.* => search needs

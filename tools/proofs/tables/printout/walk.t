use Rattle·printout·proofs.proofs.Exits.{walk-long, walk-short, walk-read}
use native.Mathlib.Omega.{arith}
returns => walk-long _ _ (omega arith) (search needs)
returns-2 => walk-short _ _ (omega arith) (search walk-read)

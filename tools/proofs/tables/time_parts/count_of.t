use Rattle·time_parts·proofs.proofs.Exits.{count-say}
returns.* => search (count-say, needs)

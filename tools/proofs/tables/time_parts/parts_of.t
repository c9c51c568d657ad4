use Rattle·time_parts·proofs.proofs.Exits.{parts-say}
returns.* => search (parts-say, needs)

use Rattle·time_types·proofs.proofs.Widths.{width-none, width-named}
returns.* => search (width-none, width-named, needs)

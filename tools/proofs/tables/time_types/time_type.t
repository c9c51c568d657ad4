use Rattle·time_types·proofs.proofs.Names.{no-byte, no-first}
returns.* => search (no-byte, no-first, needs)
.* => search needs

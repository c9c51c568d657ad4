use Rattle·de_output·proofs.proofs.Runs.{from-next, from-stop}
use Rattle·de_output·proofs.proofs.Puts.{text-order, text-full, text-short, text-never, text-done}
ruleset exits = (from-next, text-done, text-never, text-full, text-short)
text-record-requires => search text-order
returns-5 => search from-stop
returns.* => search exits
.* => search needs

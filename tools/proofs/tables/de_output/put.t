use Rattle·de_output·proofs.proofs.Runs.{from-next, from-stop}
use Rattle·de_output·proofs.proofs.Puts.{record-full, record-done}
ruleset done = (from-next, record-done)
ruleset full = (from-next, record-full)
returns => search done
returns-2 => search full
returns-3 => search from-stop

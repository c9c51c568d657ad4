use Rattle·de_output·proofs.proofs.Runs.{halts-next, halts-stop}
returns => search halts-next
returns-2 => search halts-stop

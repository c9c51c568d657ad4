use Rattle·printout·proofs.proofs.Exits.{of-done, of-lacks, of-refused}
ruleset exits = (of-done, of-lacks, of-refused)
returns.* => search exits

use Rattle·tape·proofs.proofs.Records.{step-past, step-short, step-whole}
ruleset exits = (step-past, step-short, step-whole)
returns.* => search exits

use Rattle·ser·proofs.proofs.Wholes.{before-length, before-formed, before-unformed}
ruleset exits = (before-length, before-formed, before-unformed)
returns.* => search exits
.* => search needs

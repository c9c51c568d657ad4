use Rattle·de_leaves·proofs.proofs.Leaves.{decoder-wide, decoder-narrow}
ruleset exits = (decoder-wide, decoder-narrow)
returns.* => search exits
.* => search needs

use Rattle·de_leaves·proofs.proofs.Leaves.{unlisted-value, unlisted-size, unlisted-id}
ruleset exits = (unlisted-value, unlisted-size, unlisted-id)
returns.* => search exits
.* => search needs

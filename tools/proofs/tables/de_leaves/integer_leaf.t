use Rattle·de_leaves·proofs.proofs.Leaves.{integer-signed, integer-unsigned, integer-size, integer-id}
ruleset exits = (integer-signed, integer-unsigned, integer-size, integer-id)
returns.* => search exits

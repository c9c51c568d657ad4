use Rattle·de_leaves·proofs.proofs.Leaves.{real-single, real-double, real-nan-single, real-nan-double}
ruleset exits = (real-single, real-double, real-nan-single, real-nan-double)
returns.* => search exits

use Rattle·de_leaves·proofs.proofs.Leaves.{bool-size, bool-is, bool-first}
use Rattle·validators.proofs.Validities.{size-is, size-other}
ruleset exits = (bool-size, bool-is, bool-first, size-is, size-other)
(returns|shared-slice-read).* => search exits

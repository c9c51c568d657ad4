use Rattle·de_leaves·proofs.proofs.Leaves.{text-size, text-is}
use Rattle·validators.proofs.Validities.{size-is, size-other}
ruleset exits = (text-size, text-is, size-is, size-other)
returns.* => search exits
.* => search needs

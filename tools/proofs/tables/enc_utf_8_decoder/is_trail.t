use Rattle·enc_utf_8.proofs.Cuts.{trail-below, trail-from}
ruleset exits = (trail-below, trail-from)
returns.* => search exits
.* => search needs

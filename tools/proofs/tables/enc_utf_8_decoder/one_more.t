use Rattle·enc_utf_8.proofs.Decodes.{more-end, more-below, more-above, more-last}
ruleset exits = (more-end, more-below, more-above, more-last)
returns.* => search exits
.* => search needs

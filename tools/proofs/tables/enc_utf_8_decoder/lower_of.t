use Rattle·enc_utf_8.proofs.Decodes.{lower-e0, lower-f0, lower-other}
ruleset exits = (lower-e0, lower-f0, lower-other)
returns.* => search exits
.* => search needs

use Rattle·enc_utf_8.proofs.Encodes.{len-one, len-two, len-three, len-four, len-past}
ruleset exits = (len-one, len-two, len-three, len-four, len-past)
returns.* => search exits
.* => search needs

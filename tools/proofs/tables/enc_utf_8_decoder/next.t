use Rattle·enc_utf_8.proofs.Decodes.{next-end, next-one, next-trail, next-two, next-three, next-four, next-past}
ruleset exits = (next-end, next-one, next-trail, next-two, next-three, next-four, next-past)
returns.* => search exits
.* => search needs

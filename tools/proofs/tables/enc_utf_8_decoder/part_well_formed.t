use Rattle·enc_utf_8.proofs.Cuts.{part-none, part-trail, part-last, part-clean, part-cut}
ruleset exits = (part-none, part-trail, part-last, part-clean, part-cut)
returns.* => search exits
.* => search needs

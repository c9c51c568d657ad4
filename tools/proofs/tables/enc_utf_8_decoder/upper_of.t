use Rattle·enc_utf_8.proofs.Decodes.{upper-ed, upper-f4, upper-other}
ruleset exits = (upper-ed, upper-f4, upper-other)
returns.* => search exits
.* => search needs

use Rattle·enc_text_decoder·proofs.proofs.Texts.{decoded-windows, decoded-wide}
ruleset exits = (decoded-windows, decoded-wide)
returns.* => search exits
.* => search needs

use Rattle·enc_text_decoder·proofs.proofs.Texts.{end-windows, end-wide}
ruleset exits = (end-windows, end-wide)
returns.* => search exits
.* => search needs

use Rattle·tape·proofs.proofs.Texts.{name-some, name-none}
ruleset exits = (name-some, name-none)
returns.* => search exits

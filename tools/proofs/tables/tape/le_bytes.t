use Rattle·tape·proofs.proofs.Records.{eight-stored}
returns.* => search eight-stored

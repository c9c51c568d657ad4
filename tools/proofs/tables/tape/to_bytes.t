use Rattle·tape·proofs.proofs.Records.{record-made}
returns.* => search record-made

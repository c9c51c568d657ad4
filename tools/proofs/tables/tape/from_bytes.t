use Rattle·tape·proofs.proofs.Records.{record-taken, two-fit}
cast-.* => search two-fit
returns.* => search record-taken

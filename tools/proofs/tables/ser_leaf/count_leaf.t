use Rattle·ser_leaf·proofs.proofs.Leaves.{count-signed, count-unsigned, count-below, count-above, count-other}
returns.* => search (count-signed, count-unsigned, count-below, count-above, count-other)
.* => search needs

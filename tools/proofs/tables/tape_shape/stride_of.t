use Rattle·tape_shape·proofs.proofs.Products.{stride-is, stride-none}
returns => search stride-none
returns-2 => search stride-is

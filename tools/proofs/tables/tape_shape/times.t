use Rattle·tape_shape·proofs.proofs.Products.{times-none, times-more, times-fits, times-is}
returns => search times-none
returns-2 => search times-more
mul-result => record { fits = omega (arith, times-fits (c .before .before .before .args .p) (c .before .before .before .args .b) (search needs) (search needs)) }
returns-3 => search times-is
.* => search needs

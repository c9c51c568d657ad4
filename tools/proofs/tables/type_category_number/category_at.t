use Rattle·type_category_number·proofs.proofs.Numbers.{numbered, number-last}
returns-16 => search number-last
returns.* => search numbered

use Rattle·tape_array_elements·proofs.proofs.Checks.{check-map, check-array, check-leaf, check-not-last}
ruleset exits = (check-map, check-array, check-leaf, check-not-last)
returns.* => search exits
.* => search needs

use Rattle·enc_utf_8.proofs.Encodes.{put-one, put-two, put-three-low, put-surrogate, put-three-high, put-four, put-past}
ruleset exits = (put-one, put-two, put-three-low, put-surrogate, put-three-high, put-four, put-past)
returns.* => search exits
.* => search needs

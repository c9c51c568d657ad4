use Rattle·de_output·proofs.proofs.Puts.{room-past, room-after}
returns => search room-past
returns-2 => search room-after
.* => search needs

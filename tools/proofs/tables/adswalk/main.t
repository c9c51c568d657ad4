use Rattle·printout.proofs.Room.{print-room}
part-write-all-end => search print-room

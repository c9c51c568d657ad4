use Rattle·de·proofs.proofs.Wholes.{call-room, call-book, call-type, call-root, call-refused}
use Rattle·type_book_check.proofs.Numbers.{root-is}
part-book-end => search (call-room, root-is)
read-(small|large)-requires => (search (call-book, root-is), search (call-type, root-is))
returns-3 => search (call-refused, root-is)
returns.* => search (call-root, root-is)
.* => search needs

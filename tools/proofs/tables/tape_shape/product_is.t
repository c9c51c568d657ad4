use borrow.Author.Needs.{needs}
use Prim.Native.Nat.{_≤_, _-_, _<_}
use Rattle·type_book.specs.Book.{dimensionsOf}
use Rattle·tape_shape·proofs.proofs.Products.{Multiplied, multiplied-start, multiplied-again, multiplied-small, multiplied-end}
def Inv-loop => (0 < d) × Multiplied book t e d (dims - d) p
def μ-loop => dims - d
times-requires-2 => search multiplied-small
loop-holds => (search needs, search multiplied-start)
loop-again => (search needs, search multiplied-again)
returns => search multiplied-end
.* => search needs

use borrow.Author.Needs.{needs}
use mathlib.Core.Path.{_≡_, refl}
use mathlib.Core.Bool.{false, cond}
use Prim.Native.Nat.{_≤_, _-_}
use lib.ListN.{length, drop}
use lib.Dec.{ltb}
use Rattle·enc_ascii·specs.specs.Ascii.{ascii}
use Rattle·enc_ascii·proofs.proofs.Ascii.{highest-again, highest-end}
def Inv-loop => (i ≤ length bytes) × (ascii bytes ≡ cond (ltb highest 0x80) (ascii (drop i bytes)) false)
def μ-loop => length bytes - i
loop-holds => (search needs, refl)
loop-again.* => (search needs, search highest-again)
returns => search highest-end
.* => search needs

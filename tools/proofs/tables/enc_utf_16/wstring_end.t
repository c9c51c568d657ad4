use borrow.Author.Needs.{needs}
use mathlib.Core.Path.{_≡_, refl}
use Prim.Native.Nat.{_≤_, _-_}
use lib.ListN.{length, drop}
use Rattle·enc_utf_16·specs.specs.WString.{endFrom, wstringEnd}
use Rattle·enc_utf_16·proofs.proofs.Ends.{end-here, end-again, end-none}
def Inv-loop => (at ≤ length bytes) × (wstringEnd bytes ≡ endFrom at (drop at bytes))
def μ-loop => length bytes - at
loop-holds => (search needs, refl)
returns => search end-here
loop-again => (search needs, search end-again)
returns-2 => search end-none
.* => search needs

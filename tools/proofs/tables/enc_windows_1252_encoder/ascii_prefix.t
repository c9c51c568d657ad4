use borrow.Author.Needs.{needs}
use Prim.Native.Nat.{_-_}
use lib.ListN.{length}
use Rattle·enc_windows_1252_encoder·specs.specs.Step.{AsciiTo}
use Rattle·enc_windows_1252_encoder·proofs.proofs.Prefixes.{prefix-start, prefix-block, prefix-rest}
def Inv-loop => AsciiTo text i
def μ-loop => length text - i
loop-holds => search prefix-start
loop-again => search prefix-block
returns-2 => search prefix-rest
.* => search needs

use Prim.Native.Nat.{_-_}
use lib.ListN.{length}
use Rattle·enc_utf_8.proofs.Cuts.{Passed, passed-start, passed-code, passed-less, passed-to, passed-error, passed-none, passed-all}
use Rattle·enc_utf_8_decoder·proofs.proofs.Blocks.{block-within, passed-block, passed-one}
use borrow.Author.Needs.{needs}
ruleset exits = (passed-to, passed-error, passed-none, passed-all)
def Inv-loop => Passed text at
def μ-loop => length text - at
loop-holds => search passed-start
add-at => search (needs, block-within)
loop-again => search passed-block
loop-again-2 => search passed-one
loop-less-3 => search passed-less
loop-again-3 => search passed-code
returns.* => search exits
.* => search needs

use borrow.Author.Needs.{needs}
use Prim.Native.Nat.{_≤_, _-_}
use mathlib.Core.Path.{_≡_}
use lib.ListN.{length}
use Rattle·resolve_field_plan·proofs.proofs.Plans.{typed-small, named-small, Planning, planning-start, planning-end, planning-lacks, planning-endless, planning-again, field-first, field-number}
ruleset exits = (planning-end, planning-lacks, planning-endless)
def Inv-loop => (i ≤ n) × (length plan ≡ length plan₀) × Planning book width t n plan₀ i plan
def μ-loop => n - i
loop-holds => (search needs, search needs, search planning-start)
loop-again => (search needs, search needs, search planning-again)
note-requires => (search named-small, search typed-small)
add-plan-field => search field-first
add-plan-field-2 => search field-number
returns.* => search exits
.* => search needs

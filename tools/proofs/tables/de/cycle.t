use borrow.Author.Needs.{needs}
use mathlib.Core.Path.{_≡_, refl}
use Prim.Native.Nat.{ℕ, _+_, _*_, _-_, _≤_, _<_}
use lib.ListN.{length}
use Rattle·de·specs.specs.Walk.{ctx, walk, membersFrom, elementsFrom}
use Rattle·tape_array_elements.specs.Element.{elementItem}
use Rattle·de_output.proofs.Runs.{Rest}
use Rattle·tape_shape.proofs.Strides.{Along, along-start, along-again, along-end, along-fits, element-fills, next-dimension, fills-first, fills-further}
use Rattle·tape_shape.specs.Array.{strideOf}
use Rattle·de·proofs.proofs.Exits.{value-deep, value-map, value-array, value-leaf, member-stop, member-value, part-typed, part-category, part-inside, part-order, members-start, members-again, members-end, members-stop, map-odd, map-fine, map-lacks, map-endless, array-odd, array-nothing, array-lacks, array-endless, array-other, array-base, dimension-fine, dimension-lacks, dimension-endless, elements-start, elements-again, elements-end, elements-stop, element-last, element-deep, element-further, field-number, field-first, typed-base, typed-found, leaf-inside, map-ready, given-none, map-given, own-entries, own-elements, last-given}
use Rattle·resolve_field_plan.proofs.Plans.{entry-of}
use Rattle·type_category.proofs.Numbers.{category-is}
use Rattle·validators.proofs.Validities.{size-is, size-other}
ruleset array-exits = (array-odd, array-nothing, array-lacks, array-endless, array-other, array-base, category-is, size-is, size-other)
ruleset map-exits = (map-odd, map-given, map-fine, map-lacks, map-endless, size-is, size-other)
def μ-array-access·array => 6 * a .1 .1 .1 .0 .left + 4
def μ-array-access·dimension => 6 * a .1 .1 .1 .0 .left + 3
def μ-array-access·element => 6 * a .1 .1 .1 .0 .left + 1
def μ-array-access·elements => 6 * a .1 .1 .1 .0 .left + 2
def μ-deserializer·value => 6 * a .1 .1 .1 .0 .left + 0
def μ-map-access·map => 6 * a .1 .1 .1 .0 .left + 3
def μ-map-access·member => 6 * a .1 .1 .1 .0 .left + 1
def μ-map-access·members => 6 * a .1 .1 .1 .0 .left + 2
def map-access·members-Inv-loop => (i ≤ n) × (length tape ≡ length tape₀) × (length text ≡ length text₀) × Rest (membersFrom (walk (ctx book (v .width)) (v .left)) (ctx book (v .width)) bytes (v .typed .resolved + 1) n) tape₀ text₀ here₀ (membersFrom (walk (ctx book (v .width)) (v .left)) (ctx book (v .width)) bytes (v .typed .resolved + 1 + i) (n - i)) tape text here
def map-access·members-μ-loop => n - i
def array-access·elements-Inv-loop => (i ≤ n) × Along book (p .d) (p .t) (p .element .resolved) n stride from i (length bytes) × (length tape ≡ length tape₀) × (length text ≡ length text₀) × Rest (elementsFrom (walk (ctx book (p .width)) (p .left)) (elementItem book (p .d) (p .t) (p .element)) (strideOf book (p .d) (p .t) (p .element .resolved)) bytes 0 n) tape₀ text₀ here₀ (elementsFrom (walk (ctx book (p .width)) (p .left)) (elementItem book (p .d) (p .t) (p .element)) (strideOf book (p .d) (p .t) (p .element .resolved)) bytes from (n - i)) tape text here
def array-access·elements-μ-loop => n - i
deserializer·value-leaf-requires => (search leaf-inside, search needs)
deserializer·value-map-requires => (search needs, (search needs, search needs, search map-ready))
deserializer·value-returns => search value-deep
deserializer·value-returns-2 => search value-map
deserializer·value-returns-3 => search value-array
deserializer·value-returns-4 => search value-leaf
map-access·member-value-requires => (search needs, (search needs, part-typed (c .before .before .before .before .before .before .before .before .part-of .ensures) (c .before .before .before .before .before .before .part .given .1) refl, part-category (c .before .before .before .before .before .before .before .before .part-of .ensures) (c .before .before .before .before .before .before .part .given .1), search given-none))
map-access·member-sub-value => search part-order
map-access·member-part-value-start.* => search part-order
map-access·member-part-value-end.* => search part-inside
map-access·member-returns => search member-value
map-access·member-returns-2 => search member-stop
map-access·members-returns => search members-stop
map-access·members-returns-2 => search members-end
map-access·members-loop-holds => (search needs, search needs, search needs, search members-start)
map-access·members-loop-again => (search needs, search needs, search needs, search members-again)
map-access·members-add-t20 => search field-first
map-access·members-add-t21 => search field-number
map-access·members-member-requires => (search needs, (search needs, search entry-of))
map-access·map-members-requires-2 => (search needs, (search needs, search needs, own-entries _ _ _ _ _ _ (c .before .before .before .before .before .before .plan-fields-in .ensures) (search needs)))
map-access·map-returns.* => search map-exits
array-access·array-returns.* => search array-exits
array-access·array-resolve-alias-in-requires => (search needs, search typed-found)
array-access·array-dimension-requires => (search needs, (search needs, search typed-base, search category-is, search fills-first))
array-access·dimension-elements-requires => (search needs, (search needs, search needs, search needs, own-elements _ _ _ _ _ _ _ (c .before .before .before .before .before .before .element-check .ensures) (search needs), search needs))
array-access·element-value-requires => (search needs, (search needs, search needs, search needs, search last-given))
array-access·dimension-returns => search dimension-fine
array-access·dimension-returns-2 => search dimension-lacks
array-access·dimension-returns-3 => search dimension-endless
array-access·element-add-(dimension|t18) => search next-dimension
array-access·element-returns => search element-last
array-access·element-returns-2 => search element-deep
array-access·element-returns-3 => search element-further
array-access·element-dimension-requires => (search needs, (search needs, search needs, search needs, search fills-further))
array-access·elements-returns => search elements-stop
array-access·elements-returns-2 => search elements-end
array-access·elements-loop-holds => (search needs, search along-start, search needs, search needs, search elements-start)
array-access·elements-loop-again => (search needs, search along-again, search needs, search needs, search elements-again)
array-access·elements-add-to => along-fits _ _ _ _ _ _ _ _ _ (search needs) (c .before .before .before .loop .inv .1) (search needs)
array-access·elements-part-element-end => along-end _ _ _ _ _ _ _ _ _ (search needs) (c .before .before .before .loop .inv .1)
array-access·elements-element-requires => (search needs, (search needs, search needs, search needs, search needs, search element-fills))
.* => search needs

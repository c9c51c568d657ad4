use Rattle·resolve_field_plan·proofs.proofs.Plans.{plan-nothing, plan-found, plan-plain}
use Rattle·type_category.proofs.Numbers.{category-is}
use Rattle·type_provider.proofs.Numbers.{found-is}
ruleset exits = (plan-nothing, plan-plain, category-is, found-is)
plan-alias-requires => (search needs, search (plan-found, found-is))
returns-2 => search needs
returns.* => search exits

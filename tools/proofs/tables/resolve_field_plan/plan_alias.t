use Rattle·resolve_field_plan·proofs.proofs.Plans.{alias-base, alias-lacks, alias-endless, alias-typed}
use Rattle·type_category.proofs.Numbers.{category-is}
ruleset exits = (alias-base, alias-lacks, alias-endless, category-is)
resolve-alias-in-requires => (search needs, search (alias-typed, category-is))
returns.* => search exits

use Rattle·resolve_field_plan·proofs.proofs.Plans.{entry-kept, named-cast, resolved-cast, category-cast}
ruleset casts = (named-cast, resolved-cast, category-cast)
cast-.* => search casts
returns-2 => search entry-kept
.* => search needs

use Rattle·resolve_field_plan·proofs.proofs.Plans.{entry-past}
returns-2 => search entry-past

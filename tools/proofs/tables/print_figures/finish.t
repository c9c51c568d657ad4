use Rattle·print_figures·proofs.proofs.Joins.{ended-next, ended-full}
returns => search ended-next
returns-2 => search ended-full

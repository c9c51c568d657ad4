use Rattle·de_leaf_output·proofs.proofs.Leaves.{leaf-record, leaf-text, leaf-refused}
returns => search leaf-record
returns-2 => search leaf-text
returns-3 => search leaf-refused

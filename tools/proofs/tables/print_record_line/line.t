use Rattle·print_record_line·proofs.proofs.Prints.{array-line, array-end-line, map-line, key-line, map-end-line, record-text-line, enum-line, unit-line, other-line}
returns => search array-line
returns-2 => search array-end-line
returns-3 => search map-line
returns-4 => search key-line
returns-5 => search map-end-line
returns-6 => search record-text-line
returns-7 => search enum-line
returns-8 => search unit-line
returns-9 => search other-line

use borrow.Author.Needs.{needs}
note-fields-requires => (search needs, search needs, search needs, search needs, search needs, search needs)
.* => search needs

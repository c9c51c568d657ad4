use mathlib.Core.Path.{sym}
returns => sym (c .valid-up-to .ensures .1)
.* => search needs

"""How bin/dev/wrong-bodies tries wrong bodies in rounds. `edits` reads them, `names` finds the functions of a crate,
`rounds` puts edits together, `kit` runs checks, `judging` reads what they say, `trying` leads from one to the next, and
`kept` keeps what came of it."""

"""How the wrong bodies of crates/NAME/wrong are tried: `edits` reads them, `rooms` has the copies of crates over which they are
checked, `verdicts` reads what a check says, and `rounds` tries a crate's, many at a time."""

#!/usr/bin/env python3
"""Whether each public module of lemmas is cited by another crate: `pub mod` in proofs/Lib.antt is a door, `mod` is none."""

import pathlib
import re
import sys

CRATES = pathlib.Path(__file__).resolve().parent.parent / "crates"

# A citation in a proof or a clause, and one in an attribute.
CITATIONS = (re.compile(r"Rattle\.(\w+)\.proofs\.(\w+)"), re.compile(r"\b(\w+)::proofs::(\w+)"))
DOOR = re.compile(r"^pub mod (\w+)$", re.MULTILINE)


def sources(crate):
    """The files of a crate that may cite a lemma."""
    for folder in ("src", "specs", "proofs"):
        for ending in ("rt", "antt"):
            yield from (crate / folder).rglob(f"*.{ending}")


def cited_from_outside():
    """The crate and the name of each module of lemmas that another crate cites."""
    found = set()
    for crate in CRATES.iterdir():
        for file in sources(crate):
            text = file.read_text(encoding="utf-8")
            for citation in CITATIONS:
                found.update(cited for cited in citation.findall(text) if cited[0] != crate.name)
    return found


def doors():
    """The crate and the name of each public module of lemmas."""
    for listing in sorted(CRATES.glob("*/proofs/Lib.antt")):
        for name in DOOR.findall(listing.read_text(encoding="utf-8")):
            yield listing.parent.parent.name, name


def main():
    cited = cited_from_outside()
    unused = [door for door in doors() if door not in cited]
    for crate, name in unused:
        print(f"crates/{crate}/proofs/Lib.antt: no other crate cites {name}: write `mod {name}`")
    if not unused:
        print("each public module of lemmas is cited by another crate")
    return 1 if unused else 0


if __name__ == "__main__":
    sys.exit(main())

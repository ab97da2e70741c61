"""How far a changed definition or contract reaches in its crate: by words, so rather too far than not far enough."""

import re

from .edits import FUNCTION, IMPORT, place_of

WORD = re.compile(r"[^\s(){}\[\]⟦⟧⌜⌝,;.:&*<>@`]+")
WORD_OF_CODE = re.compile(r"\w+")
# What stands before the name of a definition, and what begins a line of a file of specs that defines nothing.
KINDS = {"abbrev", "pub", "record", "data", "opaque"}
NO_DEFINITION = ("use ", "mod ", "pub mod ", "pub use ", " ", "\t", "\n")
CITED = re.compile(r"\.proofs\.([^\s{;]+)")
COMMENT = re.compile(r"^\s*(?://|--).*$|^(?:pub )?ghost use [^;]*;", re.M)


def blank(found):
    return "\n" * found[0].count("\n")


def words_of(text):
    return {*WORD.findall(text), *WORD_OF_CODE.findall(text)}


def definitions_in(text):
    """The definitions in a file of specs: of each the name, the place where it begins, and its text, with all its equations."""
    found, at = [], 0
    for line in text.splitlines(keepends=True):
        if not line.startswith((*NO_DEFINITION, "--")):
            name = next((word for word in line.split() if word not in KINDS), "")
            if not found or found[-1][0] != name:
                found.append((name, at, ""))
        if found:
            found[-1] = (*found[-1][:2], found[-1][2] + line)
        at += len(line)
    return found


def name_at(text, position):
    """The name of the definition in which something stands, or None."""
    return next((name for name, at, own in definitions_in(text) if at <= position < at + len(own)), None)


class Reach:
    """What a crate's definitions, functions and files of proofs name."""

    def __init__(self, crate):
        texts = {file.relative_to(crate).as_posix(): file.read_text(encoding="utf-8") for part in ("src", "specs", "proofs") for file in sorted(crate.glob(f"{part}/**/*.*"))}
        self.definitions = [(name, words_of(COMMENT.sub("", own))) for file, text in texts.items() if file.startswith("specs/") for name, _, own in definitions_in(text)]
        self.files = {file: (words_of(text), [it.split(".") for it in CITED.findall(text)]) for file, text in texts.items() if file.startswith("proofs/")}
        self.functions, self.others = [], set()
        for file, text in texts.items():
            if file.startswith("src/"):
                self.read_source(file, IMPORT.sub(blank, COMMENT.sub(blank, text)).split("\n"))

    def read_source(self, file, lines):
        """Notes the words of each function's contract and body, and those that stand in no function."""
        number = 0
        while number < len(lines):
            found = place_of(file, lines, number) if FUNCTION.match(lines[number]) else None
            if found:
                place, opens = found[0], next(it for it in range(number, found[0].last) if place_of(file, lines, it)[1])
                self.functions.append((place, words_of("\n".join(lines[number:opens])), words_of("\n".join(lines[opens : place.last]))))
                number = place.last
            else:
                self.others |= words_of(lines[number])
                number += 1

    def of(self, names):
        """The functions and the files of proofs that rest on definitions or functions of these names. None where types or traits
        do, of which all may rest on."""
        names, size = set(names), -1
        while size < len(names):
            size = len(names)
            names |= {name for name, words in self.definitions if words & names}
            names |= {place.path[-1] for place, contract, _ in self.functions if contract & names}
        if names & self.others:
            return None
        files, size = {file for file, (words, _) in self.files.items() if words & names}, -1
        while size < len(files):
            size = len(files)
            files |= {file for file, (_, cited) in self.files.items() if any(f"proofs/{'/'.join(it[:end])}.antt" in files for it in cited for end in range(1, len(it) + 1))}
        places = {place for place, contract, body in self.functions if (contract | body) & names or any(place.is_of(tuple(file.split("/")[1:-1])) for file in files)}
        return frozenset(places), frozenset(files)


def reached(crate, reach, pairs):
    """What pairs of old and new text reach that change definitions or contracts: functions and files of proofs, or nothing where
    that can't be told."""
    names = set()
    for path, old, _ in pairs:
        text = (crate / path).read_text(encoding="utf-8")
        if text.count(old) != 1:
            return frozenset(), frozenset()
        at = text.find(old)
        if path.startswith("specs/"):
            names.add(name_at(text, at))
        elif path.startswith("src/"):
            found = place_of(path, text.split("\n"), text[:at].count("\n"))
            names.add(found and found[0].path[-1])
        else:
            names.add(None)
    return names and None not in names and reach.of(names) or (frozenset(), frozenset())

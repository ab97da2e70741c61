"""Wrong bodies as their files state them, and the functions that they change."""

import dataclasses
import pathlib
import re

FUNCTION = re.compile(r"( *)(?:pub(?:\([^)]*\))? )?(?:const )?(?:unsafe )?fn (\w+)")
IMPL = re.compile(r"impl\b(?:<.*?>(?= ))? (?:(?P<trait>[^{]*?) for )?(?:&(?:mut )?)?(?P<type>[\w:]+)")
IMPORT = re.compile(r"^(?:pub )?use [^;]*;", re.M)


class Bad(Exception):
    """An edit that can't be applied."""


@dataclasses.dataclass(frozen=True)
class Place:
    """A function: its file, its lines, counted from 1, the module that it stands in and its name, and of a method the type, with
    the trait and a star behind where it is a trait's."""

    file: str
    first: int
    last: int
    path: tuple
    owner: str

    def named(self):
        """How a check is asked for this function alone, or for the module that it stands in if it's a trait's method. None where
        that is the whole crate."""
        if self.owner.endswith("*"):
            return "::".join(self.path[:-1]) or None
        return f"{self.owner}::{self.path[-1]}" if self.owner else "::".join(self.path)

    def is_at(self, file, line):
        return file == self.file and self.first <= line <= self.last

    def is_of(self, path):
        """Whether a path is this function's, or that of a closure in it, which goes on behind the function's and may have the
        word fn in it. A method stands where its type does, wherever the impl is, and a trait's method at the type with the
        trait's name and parameters behind."""
        path = [part.split("+")[0] for part in path if part != "fn"]
        if not self.owner:
            return path[: len(self.path)] == list(self.path)
        owners = [at for at, part in enumerate(path[:-1]) if part == self.owner or self.owner.endswith("*") and part.startswith(self.owner[:-1])]
        return any(path[at + 1] == self.path[-1] for at in owners)


def lines_of_body(lines, first, indent):
    """The lines on which the body of the function that begins here begins and ends, or None where it has no body."""
    opens = first
    while not (lines[opens] in (f"{indent}{{", f"{indent}{{}}") or lines[opens].startswith((lines[first], f"{indent})")) and "{" in lines[opens][-2:]):
        if opens == first and lines[opens].endswith(" }"):
            return first, first
        opens += 1
        if opens == len(lines) or FUNCTION.match(lines[opens]):
            return None
    ends = opens
    while lines[ends] != f"{indent}}}" and not lines[ends].endswith("{}"):
        ends += 1
    return opens, ends


def owner_of(lines, first):
    """What stands before a method's name in its path: the type, and of a trait's impl the trait behind it."""
    for line in reversed(lines[:first]):
        found = IMPL.match(line)
        if found:
            kind = found["type"].split("::")[-1]
            trait = found["trait"]
            return f"{kind}{trait.split('<')[0].split('::')[-1]}*" if trait else kind
    return ""


def place_of(file, lines, number):
    """The function on one of whose lines (counted from 0) something stands, and whether that is its body, or None."""
    first = next((it for it in range(number, -1, -1) if FUNCTION.match(lines[it])), None)
    if first is None:
        return None
    indent, name = FUNCTION.match(lines[first]).groups()
    body = lines_of_body(lines, first, indent)
    if body is None or number > body[1]:
        return None
    # (a check names the line of the first attribute)
    begins = next(it for it in range(first, -1, -1) if it == 0 or not lines[it - 1].lstrip().startswith("#["))
    module = [part for part in file.removeprefix("src/").removesuffix(".rt").split("/") if part not in ("lib", "main", "mod")]
    return Place(file, begins + 1, body[1] + 1, (*module, name), owner_of(lines, first) if indent else ""), number >= body[0]


def is_named_once(crate, name):
    """Whether a function's name stands once in a crate's code, its imports apart: no other rests on what that one promises."""
    texts = [IMPORT.sub("", file.read_text(encoding="utf-8")) for file in crate.glob("src/**/*.rt")]
    return sum(len(re.findall(rf"\b{name}\b", text)) for text in texts) == 1


class Edit:
    """A wrong body: its name, what its file contains, the texts of the files with it, and the functions that it changes. Of one that
    changes what others rest on, `note_reach` notes those, and their files of proofs. `blocked` has the functions for whose sake
    an earlier check said nothing of these."""

    def __init__(self, file, crate):
        file = pathlib.Path(file)
        self.name, self.content, self.pairs, self.blocked = file.stem, file.read_bytes(), [], set()
        self.read()
        self.texts, self.places, self.files, self.is_alone = {}, set(), frozenset(), False
        self.is_body = all([self.note_place(crate, path, old) for path, old, _ in self.pairs])
        self.places = frozenset(self.places if self.is_body else ())
        self.apply(self.texts, crate)

    def set_apart(self):
        """Notes that a check said nothing of it: it is tried alone, and then over the whole crate."""
        if self.is_alone:
            self.places = self.files = frozenset()
        self.is_alone = True

    def read(self):
        path, old = "", None
        for line in self.content.decode(errors="replace").split("\n"):
            if line.startswith("file: "):
                path = line.removeprefix("file: ").strip()
            elif line.startswith("old: "):
                old = line.removeprefix("old: ")
            elif line.startswith("new:") and old:
                self.pairs.append((path, old, line.removeprefix("new:").removeprefix(" ")))
                old = None
        if all(old == new for _, old, new in self.pairs):
            raise Bad("it has no pair of 'old:' and 'new:' that differ")

    def note_place(self, crate, path, old):
        """Notes the function that a text stands in, and returns whether there is one and no other rests on that text. A later
        pair's text may only come about by an earlier one's; it stands where that does."""
        if not path.startswith("src/") or not (crate / path).is_file():
            return False
        text = (crate / path).read_text(encoding="utf-8")
        if text.count(old) != 1:
            return bool(self.places)
        found = place_of(path, text.split("\n"), text[: text.find(old)].count("\n"))
        if found is None:
            return False
        self.places.add(found[0])
        return found[1] or is_named_once(crate, found[0].path[-1])

    def apply(self, texts, crate):
        """Makes the edit in these texts of files, which are read where they aren't there yet."""
        for path, old, new in self.pairs:
            if path not in texts:
                if not path.startswith(("src/", "specs/", "proofs/")) or not (crate / path).is_file():
                    raise Bad(f"there is no file {path} in src/, specs/ or proofs/")
                texts[path] = (crate / path).read_text(encoding="utf-8")
            if texts[path].count(old) != 1:
                raise Bad(f"an 'old:' text stands {texts[path].count(old)} times in {path}")
            texts[path] = texts[path].replace(old, new)

    def fits(self, other):
        """Whether one check of both says as much as one of each: they change other functions, or reach others, and neither changes
        one for whose sake an earlier check said nothing of the other. Bodies are tried apart from what reaches farther."""
        if self.is_alone or other.is_alone or not self.places or not other.places or self.is_body != other.is_body or self.places & other.places or self.files & other.files:
            return False
        return not any(place.is_of(path) for one, two in ((self, other), (other, self)) for path in one.blocked for place in two.places)

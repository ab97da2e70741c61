#!/usr/bin/env python3
"""Checks that what the documents point at is there: links, paths, and the names that their tables cite.

    check_docs.py [FOLDER]

FOLDER is the top of the repository, by default the one that this script lies in. Checked in README.md,
CONTRIBUTING.md, CHANGELOG.md and docs/*.md:

- a link `[text](file)`, `[text](file#heading)` or `[text](#heading)`: the file and the heading are there;
- a path in backticks that begins with a folder of the top, as `tools/reports.py`;
- in a column of a table whose heading is Contract, Definition or Kept by, what stands in backticks:
  `name` or `Type::name`    a function, type, trait or definition of that name is in crates/*/src or specs/, and in one
                            of the crates that the heading above the table names, if it names some;
  `function`: `a`, `b`      the function has the clauses a and b;
  .. in `crate/file.rt`     all names before it, back to the last `;`, are in crates/crate/src/file.rt;
  .. in `crate/File`        the same of the definitions in crates/crate/specs/File.antt;
- in a column whose heading is Crate, a name in backticks is a crate of crates.txt;
- a constant in brackets, as `(`MAX_ENTRIES`)`, is in crates/*/src, and the last number before it in its part of the
  sentence is its value; times aren't compared, as constants count looks or parts of a second;
- no line says TODO.

Writes a line for each that isn't there, and ends with status 1 if there is one."""
import re
import sys
from pathlib import Path

TOKEN = re.compile(r"`([^`]+)`")
LINK = re.compile(r"\[[^\]]*\]\(([^)\s]+)\)")
DECLARED = re.compile(r"^(?:unfoldable |opaque )?(?:abbrev pub|pub record|pub data|abbrev|record|pub|data) ([\w◌^+]+)", re.M)
ITEM = re.compile(r"^\s*(?:pub(?:\([^)]*\))? )?(?:struct|enum|trait|type|const) (\w+)")
IMPL = re.compile(r"^impl\b(?:.* for |(?:<[^<>]*(?:<[^<>]*>[^<>]*)*>)? )(\w+)")
FUNCTION = re.compile(r"^\s*(?:pub(?:\([^)]*\))? )?(?:const )?fn (\w+)")
CLAUSE = re.compile(r"^\s*(?:requires|ensures)(?: checked)? (\w+) \{")
FIELD = re.compile(r"^\s*(?:pub )?ghost (\w+) ?[:=]")
CONSTANT = re.compile(r"^\s*(?:pub(?:\([^)]*\))? )?const ([A-Z][A-Z_]+): \w+ = ([^;]+);", re.M)
CITED_CONSTANT = re.compile(r"([^;.|()]*)\(`([A-Z][A-Z_]+)`\)")
NUMBER = re.compile(r"(?<![\w^])(\d[\d,]*(?:\^\d+)?|two|three|four|a hundred)(?![\w^])(?! (?:µs|ns|ms|\w*seconds?)\b)")
WORDS = {"two": 2, "three": 3, "four": 4, "a hundred": 100}
# Names in brackets that are the system's.
FOREIGN = {"O_NONBLOCK"}


def value_of(text):
    """The value of a number in a document, or of a constant in a source; none of what is no plain number."""
    if text in WORDS:
        return WORDS[text]
    plain = text.replace(",", "").replace("_", "").replace("^", "**")
    return eval(plain) if re.fullmatch(r"\d+(?: ?(?:\*\*|\*|<<|-) ?\d+)*", plain) else None


class Sources:
    """What the crates define: each name with the files that define it, the clauses of each function, and constants."""

    def __init__(self, top):
        self.files, self.clauses, self.constants = {}, {}, {}
        self.crates = {it.split(":")[0].split()[0] for it in (top / "crates.txt").read_text().splitlines() if it[:1] not in ("#", "")}
        for path in sorted(top.glob("crates/*/specs/**/*.antt")):
            crate, file = path.relative_to(top).parts[1], path.stem
            for name in DECLARED.findall(path.read_text()):
                self.add(name, f"{crate}/{file}")
        for path in sorted(top.glob("crates/*/src/**/*.rt")):
            if "tests" not in path.parts and path.stem != "tests":
                crate = path.relative_to(top).parts[1]
                self.read_constants(path.read_text())
                self.read_code(path.read_text(), f"{crate}/{path.relative_to(top / 'crates' / crate / 'src').as_posix()}")

    def read_constants(self, text):
        for name, value in CONSTANT.findall(text):
            self.constants.setdefault(name, set()).add(value_of(value.strip()))

    def add(self, name, file):
        self.files.setdefault(name, set()).add(file)

    def is_in(self, name, crates):
        return any(file.split("/")[0] in crates for file in self.files[name])

    def read_code(self, text, file):
        """The items of a file; a function in an impl or a trait has its type's name too."""
        owner, names = None, []
        for line in text.splitlines():
            if line.startswith("}"):
                owner, names = None, []
            elif found := IMPL.match(line) or re.match(r"^(?:pub )?trait (\w+)", line):
                owner = found[1]
            if found := ITEM.match(line) or FIELD.match(line):
                self.add(found[1], file)
                if owner:
                    self.add(f"{owner}::{found[1]}", file)
            if found := FUNCTION.match(line):
                names = [f"{owner}::{found[1]}"] if owner else [found[1]]
                for name in names:
                    self.add(name, file)
            if found := CLAUSE.match(line):
                for name in names:
                    self.clauses.setdefault(name, set()).add(found[1])


def slug(heading):
    """The anchor of a heading, as GitHub makes it."""
    text = re.sub(r"[^\w\- ]", "", heading.replace("`", "").strip().lower())
    return text.replace(" ", "-")


def prose(text):
    """The lines outside blocks of code, each with its number."""
    inside = False
    for number, line in enumerate(text.splitlines(), 1):
        if line.lstrip().startswith("```"):
            inside = not inside
        elif not inside and not line.startswith("    "):
            yield number, line


def anchors(path):
    return {slug(line.lstrip("#")) for _, line in prose(path.read_text()) if line.startswith("#")}


def bad_links(top, path, line):
    """Links to files and headings that aren't there."""
    for target in LINK.findall(line):
        if "://" in target:
            continue
        name, _, heading = target.partition("#")
        file = (path.parent / name).resolve() if name else path
        if not file.exists():
            yield f"the link {target}: there is no {name}"
        elif heading and heading not in anchors(file):
            yield f"the link {target}: {file.relative_to(top)} has no such heading"


def bad_paths(top, line):
    """Paths in backticks that aren't there; what is built, and patterns, are left out."""
    folders = {it.name for it in top.iterdir() if it.is_dir()}
    for token in TOKEN.findall(line):
        word = token.split()[0].lstrip("./") if token.strip() else ""
        if "/" in word and word.split("/")[0] in folders and not re.search(r"[A-Z]{3}|[*<]|/out\b", word):
            if not (top / word).exists():
                yield f"the path {word} isn't there"


def bad_constants(sources, line):
    """Constants in brackets that no crate has, or that have another value than the number before them."""
    for before, name in CITED_CONSTANT.findall(line):
        values, numbers = sources.constants.get(name, set()), NUMBER.findall(before)
        if not values and name not in FOREIGN:
            yield f"no crate has a constant {name}"
        elif numbers and None not in values and value_of(numbers[-1]) not in values:
            yield f"{name} isn't {numbers[-1]}"


def bad_names(sources, crates, cell):
    """Names of a cell that the sources don't have. Groups are parted by semicolons; a file ends the names before it."""
    for group in cell.split(";"):
        named, clauses_of = [], None
        for found in TOKEN.finditer(group):
            token, before = found[1], group[: found.start()].rstrip()
            if "/" in token:
                yield from bad_file(sources, token, named)
                named, clauses_of = [], None
                continue
            if before.endswith(":"):
                clauses_of = named[-1] if named else None
            elif not before.endswith(","):
                clauses_of = None
            if clauses_of:
                if token not in sources.clauses.get(clauses_of, ()):
                    yield f"{clauses_of} has no clause {token}"
            elif token not in sources.files:
                yield f"no crate defines {token}"
            else:
                named.append(token)
        if crates:
            yield from (f"{it} isn't defined in {' or '.join(crates)}" for it in named if not sources.is_in(it, crates))


def bad_file(sources, file, named):
    if not any(file in files for files in sources.files.values()):
        yield f"no file {file} that defines anything"
    for name in named:
        if file not in sources.files[name]:
            yield f"{name} isn't defined in {file}"


def cells(line):
    """The cells of a table's line; a bar within a cell is written as \\|."""
    return [it.strip() for it in re.split(r"(?<!\\)\|", line.strip().strip("|"))]


def check(top, path, sources):
    """Each fault of a document, with the number of its line."""
    headings, crates = None, []
    for number, line in prose(path.read_text()):
        if line.startswith("#"):
            crates = [it for it in TOKEN.findall(line) if it in sources.crates]
        faults = [*bad_links(top, path, line), *bad_paths(top, line), *bad_constants(sources, line)]
        if "TODO" in line:
            faults.append("something is left to do")
        if not line.startswith("|"):
            headings = None
        elif headings is None:
            headings = cells(line)
        else:
            for heading, cell in zip(headings, cells(line)):
                if heading in ("Contract", "Definition", "Kept by"):
                    faults += bad_names(sources, crates, cell)
                elif heading == "Crate":
                    faults += [f"no crate {it}" for it in TOKEN.findall(cell) if it not in sources.crates]
        yield from (f"{path.relative_to(top)}:{number}: {it}" for it in faults)


def main():
    if len(sys.argv) > 2:
        sys.exit(__doc__)
    top = Path(sys.argv[1] if len(sys.argv) == 2 else Path(__file__).parent.parent).resolve()
    sources = Sources(top)
    documents = [it for it in (top / "README.md", top / "CONTRIBUTING.md", top / "CHANGELOG.md") if it.exists()]
    documents += sorted(top.glob("docs/*.md"))
    faults = [it for path in documents for it in check(top, path, sources)]
    print("\n".join(faults) if faults else f"{len(documents)} documents: all links, paths, names and constants are there")
    sys.exit(1 if faults else 0)


if __name__ == "__main__":
    main()

"""Reads a TOML document as docs/SPECIFICATION.md, section 2.1, has it.

Python's tomllib knows TOML 1.0. What 1.1 adds is written as 1.0 has it before: the escapes \\e and \\xHH, times without
seconds, and tables in braces that have several lines or end with a comma."""
import math
import re
import tomllib

from .scenes import Refused

MOST_OPEN = 80  # brackets and braces within each other, and parts of a name
MOST_INTEGER = 2**63
# A comment, a string or a bracket; what is none of these stands between them.
TOKEN = re.compile(
    r"""(?P<comment>\#[^\n]*)"""
    r'''|(?P<escaped>"{3}(?:[^\\]|\\.)*?"{3,5}|"(?:[^"\\\n]|\\.)*")'''
    r"""|(?P<literal>'{3}.*?'{3,5}|'[^'\n]*')"""
    r"""|(?P<open>[\[{])|(?P<close>[\]}])|(?P<plain>[^\#"'\[\]{}]+|["'])""",
    re.S,
)
ESCAPE = re.compile(r"\\(?:e|x([0-9A-Fa-f]{2})|.)", re.S)
LONG_NAME = re.compile(rf'(?<![\w-])(?:[\w-]++|"")(?:[ \t]*+\.[ \t]*+(?:[\w-]++|"")){{{MOST_OPEN}}}', re.A)
# What is no string, and what tomllib takes for it: times without seconds, the second 60, and the year 0, which is a leap year.
TIMES = [
    (re.compile(r"(?<![\w:+.-])((?:\d{4}-\d\d-\d\d[Tt ])?\d\d:\d\d)(?![\d:.])", re.A), r"\1:00"),
    (re.compile(r"(?<=\d\d:\d\d):60(?!\d)", re.A), ":59"),
    (re.compile(r"(\A[ \t]*|[=,]\s*)0000(?=-\d\d-\d\d(?![\w-]))", re.A), r"\g<1>2000"),
]


def read_toml(text: bytes) -> dict:
    """What a document says; whoever gives none is told why it is none."""
    try:
        decoded = text.removeprefix(b"\xef\xbb\xbf").decode("utf-8")
    except UnicodeDecodeError as why:
        line = text.count(b"\n", 0, why.start) + 1
        raise Refused(f"the text isn't UTF-8: line {line} has the byte {why.object[why.start]:#04x}") from why
    older, skeleton = in_older_words(decoded)
    if greatest_depth(skeleton) > MOST_OPEN:
        raise Refused(f"the text is no TOML: more than {MOST_OPEN} brackets are open within each other")
    if LONG_NAME.search(skeleton):
        raise Refused(f"the text is no TOML: a name has more than {MOST_OPEN} parts")
    try:
        said = tomllib.loads(older, parse_float=finite)
    except tomllib.TOMLDecodeError as why:
        raise Refused(f"the text is no TOML: {why}") from why
    except (ValueError, OverflowError) as why:
        raise Refused("the text is no TOML: a number doesn't fit 64 bits") from why
    if any(abs(it) > MOST_INTEGER or it == MOST_INTEGER for it in integers(said)):
        raise Refused("the text is no TOML: an integer doesn't fit 64 bits")
    return said


def in_older_words(text: str) -> tuple[str, str]:
    """The document in TOML 1.0, and what is left of it without comments and what stands in strings."""
    older, skeleton, opened = [], [], []
    for token in TOKEN.finditer(text):
        kind, word = token.lastgroup, token[0]
        is_in_braces = opened[-1:] == ["{"]
        bare = '""' if kind in ("escaped", "literal") else word
        if kind == "comment":
            word = bare = ""
        elif kind == "escaped":
            word = ESCAPE.sub(older_escape, word)
        elif kind == "open":
            opened.append(word)
        elif kind == "close":
            if word == "}":
                drop_comma(older)
            del opened[-1:]
        elif kind == "plain":
            for pattern, put in TIMES:
                word = pattern.sub(put, word)
            if is_in_braces:
                word = word.replace("\n", " ")
        older.append(word)
        skeleton.append(bare)
    return "".join(older), "".join(skeleton)


def older_escape(found: re.Match) -> str:
    if found[0] == r"\e":
        return r"\u001b"
    return rf"\u00{found[1]}" if found[1] else found[0]


def drop_comma(words: list[str]) -> None:
    """Takes away the comma before a closing brace, if something stands before it."""
    place = len(words) - 1
    while place > 0 and not words[place].strip():
        place -= 1
    before = words[place].rstrip()
    if before.endswith(",") and (before[:-1].strip() or place > 0 and words[place - 1] != "{"):
        words[place] = before[:-1]


def greatest_depth(skeleton: str) -> int:
    """How many brackets and braces are open within each other."""
    depth = most = 0
    for bracket in re.finditer(r"[\[\]{}]", skeleton):
        depth += 1 if bracket[0] in "[{" else -1
        most = max(most, depth)
    return most


def finite(text: str) -> float:
    value = float(text)
    if math.isinf(value) and "inf" not in text:
        raise OverflowError
    return value


def integers(said: dict):
    """All integers of a document, however deep they lie."""
    left = [said]
    while left:
        value = left.pop()
        if isinstance(value, dict):
            left.extend(value.values())
        elif isinstance(value, list):
            left.extend(value)
        elif isinstance(value, int):
            yield value

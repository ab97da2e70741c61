"""Reports of hard_disks, read block by block in one pass: the one parser that all of this package stands on.

A report of a run has lines of collisions, state blocks where the scene asks for them, and an end, as
docs/SPECIFICATION.md says. It is read in pieces of some thousand lines; the numbers of like lines that follow each other
are turned over together, by numpy where it is there and by Python's own integers where it isn't."""
import re
from array import array
from dataclasses import dataclass
from typing import Iterator, NamedTuple, TextIO

try:
    import numpy
except ImportError:
    numpy = None

from .scenes import Refused

PIECE = 1 << 18  # characters that are read at once
WHOLE, SIGNED = "[0-9]{1,18}+", "-?[0-9]{1,18}+"
LONG = r"\d{1,39}"  # sums have up to 128 bits
COLLISION = rf"{WHOLE} {WHOLE} (?:pair {WHOLE} {WHOLE} {SIGNED} {SIGNED}|wall {WHOLE} [0-3]) {SIGNED} {SIGNED}\n"
DISK = rf"disk {WHOLE} {SIGNED} {SIGNED} {SIGNED} {SIGNED}\n"
# As many like lines as follow each other; a line that is neither stands alone.
SECTION = re.compile(rf"(?P<collisions>(?:{COLLISION})++)|(?P<disks>(?:{DISK})++)|(?P<line>.*\n)", re.A)
WALL = re.compile(r" wall (\d+) (\d) (.*)", re.A)
# What stands for the word `wall` at first: no second disk is -2.
SIDE = "0 0 -2"
BROKEN = "the report breaks off before its end"


class BreaksOff(Refused):
    """A report that ends before its end, as that of a run that was stopped."""


class Collision(NamedTuple):
    """A collision with a side of the box (0 left, 1 right, 2 bottom, 3 top; `second` is -1), or of two disks (`side` is -1).

    The velocities are those afterwards, in units per tick; a side has none, so vx2 and vy2 are 0 there."""

    tick: int
    round: int
    side: int
    first: int
    second: int
    vx1: int
    vy1: int
    vx2: int
    vy2: int


@dataclass
class Collisions:
    """Collisions that follow each other: the nine numbers of each, all in one row."""

    numbers: array

    def rows(self) -> Iterator[Collision]:
        return map(Collision._make, zip(*[iter(self.numbers.tolist())] * len(Collision._fields)))


@dataclass
class State:
    """All disks at a tick: of each its number, x, y, vx and vy, all in one row. The last one of a report is its end."""

    tick: int
    numbers: array
    is_last: bool = False

    def rows(self) -> list[tuple[int, ...]]:
        """Tuples of x, y, vx and vy."""
        return [row[1:] for row in zip(*[iter(self.numbers.tolist())] * 5)]


@dataclass
class Limit:
    """A run that ends before the scene's end: which limit its last event would pass."""

    name: str
    tick: int


@dataclass
class Sums:
    """The counts of the end of a report, and where the run was done its momentum and its energies."""

    walls: int
    pairs: int
    momentum: tuple | None = None
    energies: tuple | None = None


@dataclass(frozen=True)
class PartSums:
    """What the format `sums` says of a tick: how many disks are in the part of the box that is a margin away from the sides,
    and their squared speeds; and of all collisions before it how many pairs hit each other there, with the sum of r·J, and
    how often and how hard disks hit the sides away from the corners."""

    tick: int
    disks: int
    squares: int
    pairs: int
    virial: int
    walls: int
    taken: tuple[int, ...]  # the momentum that each side took


def read_report(stream: TextIO) -> Iterator[Collisions | State | PartSums | Limit | Sums]:
    """What a report says, in its order: collisions, states and sums, then a limit or the last state, and the counts."""
    sections = Sections(stream)
    while True:
        kind, text = sections.next()
        if kind == "collisions":
            yield Collisions(collision_numbers(text))
            continue
        match text.split():
            case ["state", tick] if re.fullmatch(WHOLE, tick, re.A):
                yield State(int(tick), sections.disks())
            case ["inside", *_]:
                yield sections.part_sums(text)
            case ["done", end] if re.fullmatch(WHOLE, end, re.A):
                yield from done(int(end), sections)
                return
            case ["limit", name, tick, *_] if re.fullmatch(WHOLE, tick, re.A):
                yield Limit(name, int(tick))
                yield Sums(*sections.numbers("walls", 1), *sections.numbers("pairs", 1))
                return
            case _:
                raise Refused(f"no line of a report of a run, as ./hard_disks writes one: {text.splitlines()[0]}")


def done(end: int, sections: "Sections") -> Iterator[State | PartSums | Sums]:
    """The end of a run that came to its end; a summary has no last state and no sums."""
    counts = *sections.numbers("walls", 1), *sections.numbers("pairs", 1)
    momentum, energies = sections.numbers("momentum", 2), sections.numbers("energy", 2)
    disks = sections.disks()
    if len(disks):
        yield State(end, disks, is_last=True)
    elif sections.held:
        yield sections.part_sums(sections.next()[1])
    yield Sums(*counts, momentum, energies)


def collision_numbers(text: str):
    """The numbers of lines of collisions, in the order of `Collision`."""
    text = text.replace("pair", "-1")
    if numpy is None:
        return numbers(WALL.sub(r" \2 \1 -1 \3 0 0", text))
    # Lines of sides are made as long as the others, and put in order as numbers: so no line is touched alone.
    found = numbers(text.replace("wall", SIDE)).reshape(-1, len(Collision._fields))
    at_side = numpy.flatnonzero(found[:, 4] == -2)
    tick, turn, _, _, _, disk, side, vx, vy = found[at_side].T
    none = numpy.zeros_like(tick)
    found[at_side] = numpy.column_stack([tick, turn, side, disk, none - 1, vx, vy, none, none])
    return found.ravel()


def numbers(text: str):
    """All the numbers of a text that has nothing else, 64 bits wide."""
    if numpy is None:
        return array("q", map(int, text.split()))
    return numpy.fromstring(text, dtype=numpy.int64, sep=" ")


class Sections:
    """Runs of like lines of a report, one of which can be put back."""

    def __init__(self, stream: TextIO):
        self.found, self.held = sections(stream), None

    def next(self) -> tuple[str, str]:
        section, self.held = self.held or next(self.found, None), None
        if section is None:
            raise BreaksOff(BROKEN)
        return section

    def numbers(self, word: str, count: int) -> tuple[int, ...]:
        """The numbers of the next line, which begins with a word."""
        return numbers_after(word, count, self.next()[1])

    def part_sums(self, text: str) -> PartSums:
        """The sums of a line `inside` and of the line `sides` behind it."""
        tick, *inside = numbers_after("inside", 5, text, LONG)
        other, walls, *taken = numbers_after("sides", 6, self.next()[1], LONG)
        if other != tick:
            raise Refused(f"sides of tick {other} behind an inside of tick {tick}")
        return PartSums(tick, *inside, walls, tuple(taken))

    def disks(self):
        """The numbers of the lines `disk` that follow, whose disks have to stand in their order."""
        texts = []
        for kind, text in self.found:
            if kind != "disks":
                self.held = kind, text
                break
            texts.append(text.replace("disk ", ""))
        found = numbers("".join(texts))
        for wanted, number in enumerate(found[::5].tolist()):
            if number != wanted:
                raise Refused(f"disk {number} where disk {wanted} is wanted")
        return found


def numbers_after(word: str, count: int, text: str, number: str = SIGNED) -> tuple[int, ...]:
    """The numbers of a line that begins with a word."""
    if not re.fullmatch(rf"{word}(?: {number}){{{count}}}\n", text, re.A):
        raise Refused(f"{text.splitlines()[0]!r} where a line '{word}' is wanted")
    return tuple(map(int, text.split()[1:]))


def sections(stream: TextIO) -> Iterator[tuple[str, str]]:
    """The runs of like lines of a stream, each with its kind; a long run comes in parts."""
    rest = ""
    while piece := stream.read(PIECE):
        rest += piece
        whole = rest.rfind("\n") + 1
        for section in SECTION.finditer(rest, 0, whole):
            yield section.lastgroup, section[0]
        rest = rest[whole:]
    if rest:
        raise BreaksOff(BROKEN)

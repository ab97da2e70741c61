"""Reads the text of a scene by the rules of docs/SPECIFICATION.md, section 2: the one reader that all of this package
stands on."""
import reprlib
from typing import Iterator

from .scenes import MOST_DISKS, MOST_TICK, RANGES, Refused, Scene
from .toml_text import read_toml

MOST_BYTES = 2**26
# The comment that a scene begins with which goes on from an earlier run; the program passes over it.
GOES_ON = "# goes on from an earlier run\n"
# So many findings of a kind are told.
MOST_TOLD = 5
# Of a value that is told, so much is shown.
BRIEF = reprlib.Repr()
BRIEF.maxstring = BRIEF.maxlong = 40


def read_scene(path) -> Scene:
    """The scene of a file."""
    with open(path, "rb") as file:
        text = file.read(MOST_BYTES + 1)
    try:
        return parse_scene(text)
    except Refused as why:
        raise Refused(f"{path}: {why}") from why


def parse_scene(text: str | bytes) -> Scene:
    """The scene that a text says. All is looked at but whether two disks overlap, which the program says."""
    text = text.encode() if isinstance(text, str) else text
    said = read_text(text)
    if faults := unusable(said) or misplaced(said):
        raise Refused(faults[0])
    return Scene(*(said[key] for key in RANGES), said.get("every"), tuple(disks_of(said)), text.startswith(GOES_ON.encode()))


def read_text(text: bytes) -> dict:
    """What the document says at each key."""
    if len(text) > MOST_BYTES:
        raise Refused(f"the text has more than {MOST_BYTES} bytes")
    return read_toml(text)


def unusable(said: dict) -> list[str]:
    """What is wrong with the keys, the numbers, or the form and size of the rows: the first of these that has faults."""
    return next(filter(None, (list(look(said)) for look in (wrong_keys, wrong_numbers, wrong_rows, wrong_sizes))), [])


def misplaced(said: dict) -> list[str]:
    """Which disks are outside or too fast, if nothing is `unusable`."""
    return [*told("outside", list(outside(said))), *told("too fast", list(too_fast(said)))]


def is_integer(value: object) -> bool:
    return isinstance(value, int) and not isinstance(value, bool)


def wrong_keys(said: dict) -> Iterator[str]:
    for key in sorted(said.keys() - RANGES.keys() - {"every", "disks"}):
        yield f"there is a key {BRIEF.repr(key)}, and only {', '.join(RANGES)}, every and disks may be"
    for key in [*RANGES, "disks"]:
        if key not in said:
            yield f"the key {key} is missing"
    for key in [*RANGES, "every"]:
        if key in said and not is_integer(said[key]):
            yield f"{key} = {BRIEF.repr(said[key])} isn't an integer, as 40 is; 40.0, 4e1 and \"40\" are none"
    if not isinstance(said.get("disks", []), list):
        yield "disks isn't an array of rows"


def wrong_numbers(said: dict) -> Iterator[str]:
    for key, (least, most) in {**RANGES, "every": (1, MOST_TICK)}.items():
        if not least <= said.get(key, least) <= most:
            yield f"{key} = {said[key]} isn't from {least} to {most}"
    if said["diameter"] % 2:
        yield f"diameter = {said['diameter']} isn't even"
    if said["diameter"] > min(said["width"], said["height"]):
        yield f"diameter = {said['diameter']} is greater than the width or the height of the box"
    if len(said["disks"]) > MOST_DISKS:
        yield f"there are {len(said['disks'])} disks, more than {MOST_DISKS}"


def told(kind: str, findings: list[str]) -> Iterator[str]:
    """The first of them, and how many more there are."""
    yield from findings[:MOST_TOLD]
    if len(findings) > MOST_TOLD:
        yield f".. and {len(findings) - MOST_TOLD} more {kind}"


def wrong_rows(said: dict) -> Iterator[str]:
    yield from told("such rows", [
        f"disk {i}: {BRIEF.repr(row)} isn't x, y, vx, vy and maybe a diameter, all integers"
        for i, row in enumerate(said["disks"])
        if not (isinstance(row, list) and len(row) in (4, 5) and all(map(is_integer, row)))
    ])


def disks_of(said: dict) -> list[tuple[int, ...]]:
    """Of each disk x, y, vx, vy and diameter."""
    return [tuple(row) if len(row) == 5 else (*row, said["diameter"]) for row in said["disks"]]


def wrong_sizes(said: dict) -> Iterator[str]:
    most = said["diameter"]
    yield from told("such diameters", [
        f"disk {i}: its diameter {size} isn't even, or not from 2 to {most}"
        for i, (*_, size) in enumerate(disks_of(said)) if size % 2 or not 2 <= size <= most
    ])


def outside(said: dict) -> Iterator[str]:
    for i, (x, y, _, _, size) in enumerate(disks_of(said)):
        for name, place, side in (("x", x, said["width"]), ("y", y, said["height"])):
            if not size // 2 <= place <= side - size // 2:
                yield f"disk {i}: {name} = {place} isn't from {size // 2} to {side - size // 2}, so it isn't inside the box"


def too_fast(said: dict) -> Iterator[str]:
    limit = said["speed_limit"]
    for i, (_, _, vx, vy, _) in enumerate(disks_of(said)):
        if max(abs(vx), abs(vy)) > limit:
            yield f"disk {i}: the velocity ({vx}, {vy}) has a component above the speed_limit {limit}"

#!/usr/bin/env python3
"""A second simulator of hard disks, written from docs/SPECIFICATION.md alone, in that page's names and order. What a
docstring begins with is the heading that it follows.

    python3 tools/tests/second_simulator.py <scenes/gas.toml

It is slow and obvious: for each event it looks at all disks and all pairs. Scenes have to be valid."""
import sys
from dataclasses import replace
from itertools import combinations
from math import isqrt
from typing import NamedTuple

import places  # makes the package importable

from hard_disks.scene_text import parse_scene
from hard_disks.scenes import Scene

DONE, SPEED_LIMIT, ROUND_LIMIT = 0, 4, 5
WALL, PAIR = 1, 2
KINDS = {WALL: "wall", PAIR: "pair"}
LIMITS = {SPEED_LIMIT: "speed", ROUND_LIMIT: "rounds"}
Vector = tuple[int, int]


class Record(NamedTuple):
    """3.1 Record and place: what a disk is between two events that change it."""

    x: int
    y: int
    vx: int
    vy: int
    size: int
    base: int
    mark: int

    @property
    def radius(self) -> int:
        """1. Quantities: half the size."""
        return self.size // 2


class Stamp(NamedTuple):
    """4.3 Round and stamp: the five numbers of an event, compared in this order."""

    tick: int
    round: int
    kind: int
    first: int
    second: int


class Run(NamedTuple):
    """4.5 The run: its events, each with the records after it; how it ended, and the event that failed a limit."""

    events: list[tuple[Stamp, list[Record]]]
    status: int
    failed: Stamp | None


def records_at_start(scene: Scene) -> list[Record]:
    """3.1 Record and place: the records of a scene."""
    return [Record(*disk, base=0, mark=0) for disk in scene.disks]


def place(disk: Record, tick: int) -> Vector:
    """3.1 Record and place: the centre of a disk at a tick."""
    return disk.x + disk.vx * (tick - disk.base), disk.y + disk.vy * (tick - disk.base)


def is_inside(scene: Scene, disk: Record, tick: int) -> bool:
    """3.1 Record and place: whether a disk is inside the box at a tick."""
    x, y = place(disk, tick)
    return disk.radius <= x <= scene.width - disk.radius and disk.radius <= y <= scene.height - disk.radius


def dot(p: Vector, q: Vector) -> int:
    """3.2 Contact tick: the scalar product."""
    return p[0] * q[0] + p[1] * q[1]


def r_and_u(first: Record, second: Record, tick: int) -> tuple[Vector, Vector]:
    """3.2 Contact tick: place and velocity of the first disk less those of the second."""
    (x1, y1), (x2, y2) = place(first, tick), place(second, tick)
    return (x1 - x2, y1 - y2), (first.vx - second.vx, first.vy - second.vy)


def a_b_c(first: Record, second: Record, tick: int) -> tuple[int, int, int]:
    """3.2 Contact tick: the three numbers that tell how two disks move to each other."""
    r, u = r_and_u(first, second, tick)
    return dot(u, u), dot(r, u), dot(r, r) - (first.radius + second.radius) ** 2


def is_contact_tick(scene: Scene, first: Record, second: Record, tick: int) -> bool:
    """3.2 Contact tick: the four parts of its definition."""
    a, b, c = a_b_c(first, second, tick)
    _, later_b, later_c = a_b_c(first, second, tick + 1)
    is_after_both = tick >= first.base and tick >= second.base
    are_inside = is_inside(scene, first, tick) and is_inside(scene, second, tick)
    return is_after_both and are_inside and c >= 0 and b < 0 and b * b > a * c and (later_c < 0 or later_b >= 0)


def contact_tick(scene: Scene, first: Record, second: Record) -> int | None:
    """3.2 Contact tick: that of two disks, or None. No other can be it than the last whole tick not after the moment at
    which the two would touch, the earlier root of a·t² + 2·b·t + c."""
    a, b, c = a_b_c(first, second, 0)
    square = b * b - a * c
    if square <= 0:
        return None
    root_rounded_up = isqrt(square - 1) + 1
    tick = (-b - root_rounded_up) // a
    return tick if is_contact_tick(scene, first, second, tick) else None


def is_past(scene: Scene, disk: Record, side: int, tick: int) -> bool:
    """3.3 Wall tick: whether a disk is past a side at a tick."""
    x, y = place(disk, tick)
    right, top = scene.width - disk.radius, scene.height - disk.radius
    return (x < disk.radius, x > right, y < disk.radius, y > top)[side]


def is_wall_tick(scene: Scene, disk: Record, side: int, tick: int) -> bool:
    """3.3 Wall tick: the two parts of its definition."""
    return tick >= disk.base and is_inside(scene, disk, tick) and is_past(scene, disk, side, tick + 1)


def wall_tick(scene: Scene, disk: Record, side: int) -> int | None:
    """3.3 Wall tick: that of a disk and a side, or None. No other can be it than the last before the way to the side is
    used up."""
    right, top = scene.width - disk.radius, scene.height - disk.radius
    way = (disk.x - disk.radius, right - disk.x, disk.y - disk.radius, top - disk.y)[side]
    speed = (-disk.vx, disk.vx, -disk.vy, disk.vy)[side]
    if speed <= 0:
        return None
    tick = disk.base + way // speed
    return tick if is_wall_tick(scene, disk, side, tick) else None


def candidates(scene: Scene, state: list[Record]) -> list[Stamp]:
    """4.1 Candidates: what may come next, each as its stamp."""
    found = []
    for i, disk in enumerate(state):
        for side in range(4):
            tick = wall_tick(scene, disk, side)
            if tick is not None and tick < scene.end:
                found.append(Stamp(tick, round_of(tick, disk), WALL, i, side))
    for (i, first), (j, second) in combinations(enumerate(state), 2):
        tick = contact_tick(scene, first, second)
        if tick is not None and tick < scene.end:
            found.append(Stamp(tick, round_of(tick, first, second), PAIR, i, j))
    return found


def sign(number: int) -> int:
    """4.2 Impulse: 1, 0 or -1."""
    return (number > 0) - (number < 0)


def impulse(first: Record, second: Record, tick: int) -> Vector:
    """4.2 Impulse: what two disks that collide give each other."""
    r, u = r_and_u(first, second, tick)
    b, d = dot(r, u), dot(r, r)
    numerators = [-b * abs(part) for part in r]
    nearest = tuple(sign(part) * ((2 * n + d) // (2 * d)) for part, n in zip(r, numerators))
    if b + 2 * dot(r, nearest) > 0:
        return nearest
    return tuple(sign(part) * ((n + d - 1) // d) for part, n in zip(r, numerators))


def new_velocities(state: list[Record], event: Stamp) -> dict[int, Vector]:
    """4.2 Impulse: the velocity of each disk of an event after it."""
    first = state[event.first]
    if event.kind == WALL:
        return {event.first: (-first.vx, first.vy) if event.second < 2 else (first.vx, -first.vy)}
    second = state[event.second]
    jx, jy = impulse(first, second, event.tick)
    return {event.first: (first.vx + jx, first.vy + jy), event.second: (second.vx - jx, second.vy - jy)}


def round_of(tick: int, *disks: Record) -> int:
    """4.3 Round and stamp: the round of an event of these disks."""
    return max((disk.mark for disk in disks if disk.base == tick), default=0)


def limit_failed(scene: Scene, state: list[Record], event: Stamp) -> int | None:
    """4.4 Next event and effect: the limit that an event fails, as a status, or None."""
    if event.round == scene.round_limit:
        return ROUND_LIMIT
    parts = [part for velocity in new_velocities(state, event).values() for part in velocity]
    return SPEED_LIMIT if max(map(abs, parts)) > scene.speed_limit else None


def effect(state: list[Record], event: Stamp) -> list[Record]:
    """4.4 Next event and effect: the records after an event."""
    after = list(state)
    for i, velocity in new_velocities(state, event).items():
        after[i] = Record(*place(state[i], event.tick), *velocity, state[i].size, event.tick, event.round + 1)
    return after


def run(scene: Scene) -> Run:
    """4.5 The run: the next event after the next, until no candidate is left or one fails a limit."""
    state, events = records_at_start(scene), []
    while found := candidates(scene, state):
        event = min(found)
        limit = limit_failed(scene, state, event)
        if limit is not None:
            return Run(events, limit, event)
        state = effect(state, event)
        events.append((event, state))
    return Run(events, DONE, None)


def state_before(scene: Scene, made: Run, tick: int) -> list[Record]:
    """5.2 State blocks: the records after all events whose tick is below this one."""
    return [records_at_start(scene), *(state for event, state in made.events if event.tick < tick)][-1]


def line(*fields) -> str:
    """5. The report: a line of fields."""
    return " ".join(map(str, fields)) + "\n"


def name(event: Stamp) -> tuple:
    """5.1 Lines of events: the fields that say which event it is."""
    return event.tick, event.round, KINDS[event.kind], event.first, event.second


def event_line(event: Stamp, after: list[Record]) -> str:
    """5.1 Lines of events: an event and the velocities after it."""
    disks = [event.first] if event.kind == WALL else [event.first, event.second]
    return line(*name(event), *(part for i in disks for part in after[i][2:4]))


def disk_lines(state: list[Record], tick: int) -> str:
    """5.2 State blocks: each disk's number, place at a tick and velocity."""
    return "".join(line("disk", i, *place(disk, tick), disk.vx, disk.vy) for i, disk in enumerate(state))


def block_ticks(scene: Scene, made: Run) -> range:
    """5.2 State blocks: the ticks at which blocks are due."""
    last = scene.end if made.failed is None else made.failed.tick + 1
    return range(0) if scene.every is None else range(scene.every, last, scene.every)


def events_and_blocks(scene: Scene, made: Run) -> str:
    """5.2 State blocks: they and the lines of events; a block stands before an event of its own tick."""
    ticks = block_ticks(scene, made)
    blocks = [(tick, 0, line("state", tick) + disk_lines(state_before(scene, made, tick), tick)) for tick in ticks]
    lines = [(event.tick, 1, event_line(event, after)) for event, after in made.events]
    return "".join(text for *_, text in sorted(blocks + lines, key=lambda it: it[:2]))


def counts(made: Run) -> str:
    """5.3 The end of a run that is done: how many events there were."""
    kinds = [event.kind for event, _ in made.events]
    return line("walls", kinds.count(WALL)) + line("pairs", kinds.count(PAIR))


def energy(state: list[Record]) -> int:
    """5.3 The end of a run that is done: the sum of the squared speeds."""
    return sum(disk.vx**2 + disk.vy**2 for disk in state)


def end_of_done(scene: Scene, made: Run) -> str:
    """5.3 The end of a run that is done: all lines but those of disks."""
    start, final = records_at_start(scene), state_before(scene, made, scene.end)
    momentum = line("momentum", sum(disk.vx for disk in final), sum(disk.vy for disk in final))
    return line("done", scene.end) + counts(made) + momentum + line("energy", energy(start), energy(final))


def end_of_limit(made: Run) -> str:
    """5.4 The end of a run that passed a limit: which limit and which event."""
    return line("limit", LIMITS[made.status], *name(made.failed)) + counts(made)


def summary(scene: Scene, made: Run) -> str:
    """5. The report: its format `summary`."""
    return end_of_done(scene, made) if made.status == DONE else end_of_limit(made)


def report(scene: Scene, made: Run) -> str:
    """5. The report: its format `lines`."""
    final = disk_lines(state_before(scene, made, scene.end), scene.end) if made.status == DONE else ""
    return events_and_blocks(scene, made) + summary(scene, made) + final


def states(scene: Scene, made: Run) -> str:
    """5. The report: its format `states`."""
    return "".join(text for text in report(scene, made).splitlines(True) if not text[0].isdigit())


def is_away(margin: int, length: int, along: int) -> bool:
    """5.5 Sums: whether a place along a side is at least the margin from both ends."""
    return margin <= along <= length - margin


def is_in_part(scene: Scene, margin: int, point: Vector) -> bool:
    """5.5 Sums: whether a point is in the part."""
    return is_away(margin, scene.width, point[0]) and is_away(margin, scene.height, point[1])


def has_middle_in_part(scene: Scene, margin: int, p: Vector, q: Vector) -> bool:
    """5.5 Sums: whether the middle between two places is in the part."""
    twice = replace(scene, width=2 * scene.width, height=2 * scene.height)
    return is_in_part(twice, 2 * margin, (p[0] + q[0], p[1] + q[1]))


def inside_line(scene: Scene, made: Run, margin: int, tick: int) -> str:
    """5.5 Sums: the disks and the pairs of the part."""
    disks = [disk for disk in state_before(scene, made, tick) if is_in_part(scene, margin, place(disk, tick))]
    pairs = virial = 0
    for (event, _), before in zip(made.events, [records_at_start(scene), *(after for _, after in made.events)]):
        if event.kind == PAIR and event.tick < tick:
            first, second = before[event.first], before[event.second]
            if has_middle_in_part(scene, margin, place(first, event.tick), place(second, event.tick)):
                pairs += 1
                virial += dot(r_and_u(first, second, event.tick)[0], impulse(first, second, event.tick))
    return line("inside", tick, len(disks), energy(disks), pairs, virial)


def sides_line(scene: Scene, made: Run, margin: int, tick: int) -> str:
    """5.5 Sums: what the sides took."""
    walls, taken = 0, [0, 0, 0, 0]
    for event, after in made.events:
        if event.kind == WALL and event.tick < tick:
            disk, side = after[event.first], event.second
            x, y = place(disk, event.tick)
            if is_away(margin, *((scene.height, y) if side < 2 else (scene.width, x))):
                walls += 1
                taken[side] += 2 * abs(disk.vx if side < 2 else disk.vy)
    return line("sides", tick, walls, *taken)


def sums(scene: Scene, made: Run, margin: int) -> str:
    """5.5 Sums: the report in this format."""
    def at(tick):
        return inside_line(scene, made, margin, tick) + sides_line(scene, made, margin, tick)

    last = at(scene.end) if made.status == DONE else ""
    return "".join(map(at, block_ticks(scene, made))) + summary(scene, made) + last


def cut(scene: Scene, at: int) -> tuple[str, int]:
    """6.5 Runs in parts: the canonical text of the rest after a tick, or why there is none, and the status."""
    made = run(replace(scene, end=at))
    if made.status != DONE:
        return end_of_limit(made), made.status
    final = state_before(scene, made, at)
    disks = tuple((*place(disk, at), disk.vx, disk.vy, disk.size) for disk in final)
    return replace(scene, end=scene.end - at, every=None, disks=disks).text(), DONE


def main():
    scene = parse_scene(sys.stdin.read())
    made = run(scene)
    print(report(scene, made), end="")
    return made.status


if __name__ == "__main__":
    sys.exit(main())

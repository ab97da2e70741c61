"""A run as numpy sees it: frames, collisions, and the disks' places between collisions, streaming and in one pass."""
from collections import deque
from contextlib import nullcontext
from dataclasses import replace
from itertools import takewhile
from pathlib import Path
from typing import Iterator, NamedTuple

import numpy as np

from .motion import Followed, Motion
from .progress import Progress
from .reports import Collision, Collisions, Limit, PartSums, State, Sums, read_report
from .scene_text import parse_scene, read_scene
from .scenes import Refused, Scene

FIELDS = len(Collision._fields)
NO_EVENTS = np.zeros((0, FIELDS), np.int64)


class Frame(NamedTuple):
    """All disks at a tick: rows of x, y, vx and vy, in units and units per tick."""

    tick: int
    rows: np.ndarray


class Sample(NamedTuple):
    """The same at a tick of which the report says nothing, found by following the disks."""

    tick: int
    rows: np.ndarray


class Run:
    """A scene and the report of its run, a path or a stream of text. Each call reads it whole; a stream is read once.

    With `until`, a tick before the scene's end, it is the run up to that tick, whatever the report says of later ones."""

    def __init__(self, scene: Scene, report, shows_progress: bool = False, until: int | None = None):
        if until is not None and not 0 < until < scene.end:
            raise Refused(f"a run until tick {until} is no part of one that ends at tick {scene.end}")
        self.scene = scene if until is None else replace(scene, end=until)
        self.shows_progress, self.is_part = shows_progress, until is not None
        self.report = report

    def frames(self, since: int = 0) -> Iterator[Frame]:
        """The states from a tick on: first the scene's own, at the tick 0, and last the end."""
        has_states = False
        for item in self.items(is_about_states=True):
            if isinstance(item, State):
                if not has_states and since == 0 < item.tick:
                    yield self.start()
                has_states = True
                if item.tick >= since:
                    yield frame_of(item)
        if not has_states:
            raise Refused("the report has no state: it is a summary")

    def start(self) -> Frame:
        """The scene's own state."""
        return Frame(0, np.array([row[:4] for row in self.scene.disks], np.int64).reshape(-1, 4))

    def collisions(self):
        """All collisions, as a DataFrame of whole numbers."""
        return table_of(np.concatenate([NO_EVENTS, *self.events()]))

    def collision_tables(self) -> Iterator:
        """The same in parts, as they are read."""
        return (table_of(events) for events in self.events())

    def events(self) -> Iterator[np.ndarray]:
        """The collisions in parts: rows of the numbers of a `Collision`."""
        for item in self.items():
            if isinstance(item, Collisions):
                yield item.numbers.reshape(-1, FIELDS)

    def followed(self, samples: list[int]) -> Iterator[Followed | Sample | Frame | PartSums]:
        """Collisions with the disks' places and velocities, many at once, and behind those a sample at each of these ticks
        that lies among them. Between them are the frames: the scene's own, those of the report, and the end. Of a report that
        has sums it is these, in their order."""
        motion, waiting = Motion(self.scene), deque(samples)
        yield self.start()
        for item in self.items():
            if isinstance(item, State) and item.tick > 0:
                yield frame_of(item)
            if isinstance(item, PartSums):
                waiting.clear()
                yield item
            if not isinstance(item, Collisions):
                continue
            events = item.numbers.reshape(-1, FIELDS)
            due = [waiting.popleft() for _ in takewhile(lambda tick: tick <= events[-1, 0], tuple(waiting))]
            found, rows = motion.follow(events, due)
            yield found
            yield from map(Sample, due, rows)
        yield from (Sample(tick, motion.at(tick)) for tick in waiting)

    def items(self, is_about_states: bool = False) -> Iterator[Collisions | State | PartSums | Sums]:
        """What the report says, which has to be of this scene and to come to its end.

        If only its states are asked for, all lines of collisions may have been left out."""
        counted, has_sums = 0, False
        with Progress(self.scene.end, self.shows_progress) as progress, self.opened() as stream:
            for item in self.first_part(read_report(stream)) if self.is_part else read_report(stream):
                if isinstance(item, Limit):
                    raise Refused(f"the run ends at a limit of {item.name} at tick {item.tick}, before its end")
                if isinstance(item, State):
                    self.check_state(item)
                    progress.show(item.tick)
                if isinstance(item, PartSums):
                    has_sums = True
                    self.check_sums(item)
                    progress.show(item.tick)
                if isinstance(item, Collisions):
                    counted += len(item.numbers) // FIELDS
                    self.check_collisions(item.numbers.reshape(-1, FIELDS))
                    progress.show(int(item.numbers[-FIELDS]))
                lacks_some = isinstance(item, Sums) and item.walls + item.pairs > counted
                if lacks_some and not has_sums and (counted or not is_about_states):
                    raise Refused("the report lacks collisions that it counts: it is a summary, or broken")
                yield item

    def first_part(self, items: Iterator) -> Iterator[Collisions | State | PartSums]:
        """What comes before the end, and the state at the end if there is one."""
        for item in items:
            if isinstance(item, Collisions):
                early = item.numbers.reshape(-1, FIELDS)
                early = early[early[:, 0] < self.scene.end]
                if len(early):
                    yield Collisions(early.ravel())
                if len(early) * FIELDS < len(item.numbers):
                    return
            elif isinstance(item, (State, PartSums)) and item.tick <= self.scene.end:
                yield item
            else:
                return

    def opened(self):
        """The report as a stream, which is closed afterwards where it is a file's."""
        if isinstance(self.report, (str, Path)):
            return open(self.report, encoding="ascii")
        if self.report is None:
            raise Refused("the report was read already")
        stream, self.report = self.report, None
        return nullcontext(stream)

    def check_state(self, state: State) -> None:
        found, wanted = len(state.numbers) // 5, len(self.scene.disks)
        if found != wanted:
            raise Refused(f"{found} disks at tick {state.tick}, and {wanted} in the scene: is it the report of this scene?")
        if state.is_last and state.tick != self.scene.end:
            raise Refused(f"the report ends at tick {state.tick}, and the scene at {self.scene.end}")

    def check_sums(self, sums: PartSums) -> None:
        if sums.disks > len(self.scene.disks) or sums.tick > self.scene.end:
            raise Refused(f"{sums.disks} disks at tick {sums.tick}: are these sums of this scene?")

    def check_collisions(self, events: np.ndarray) -> None:
        named = int(events[:, 3:5].max())
        if named >= len(self.scene.disks):
            raise Refused(f"a collision of disk {named}, which the scene hasn't")


def frame_of(state: State) -> Frame:
    return Frame(state.tick, state.numbers.reshape(-1, 5)[:, 1:])


def table_of(rows: np.ndarray):
    """Collisions as a DataFrame of nullable whole numbers; what a collision hasn't is missing."""
    from pandas import DataFrame
    from pandas.arrays import IntegerArray

    is_wall = rows[:, 4] < 0
    missing = {"side": ~is_wall, "second": is_wall, "vx2": is_wall, "vy2": is_wall}
    numbers = {
        name: IntegerArray(rows[:, place].copy(), missing.get(name, np.zeros(len(rows), bool)))
        for place, name in enumerate(Collision._fields)
    }
    table = DataFrame({"kind": np.where(is_wall, "wall", "pair").astype(object), **numbers})
    return table[["tick", "round", "kind", "first", "second", "side", "vx1", "vy1", "vx2", "vy2"]]


def read(report, scene=None) -> Run:
    """The run of a report, which is a path or a stream of text.

    The scene is a `Scene` or its file's path. Where it is left out, the stream has it, then a line `===`, and then the
    report, as the program's mode `audit` reads them."""
    if scene is None:
        report = open(report, encoding="utf-8") if isinstance(report, (str, Path)) else report
        scene = parse_scene("".join(takewhile(lambda line: line.rstrip("\n") != "===", iter(report.readline, ""))))
    elif not isinstance(scene, Scene):
        scene = read_scene(scene)
    return Run(scene, report)

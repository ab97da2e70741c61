"""Another code's events beside the exact run, in windows of time: whole trajectories part after some collisions of each disk,
as paths a little apart diverge, but from the same state a right code has the same events for a while.

Each of its states begins a window. Events are compared by each disk's next partner, until disks part; what comes after of
these, and of whom they meet, says nothing. A parting is explained if the other code has another event of the same disks at
nearly that time: then roundings decide which is first."""
from collections import deque
from dataclasses import dataclass, field
from typing import Iterator

import numpy as np

from .equation import report_of
from .fitting import fit
from .runs import Run
from .sampling import Table
from .scenes import Refused, Scene

# Into how many parts a window is cut in the table, and how many partings are told singly.
PARTS, TOLD = 10, 10
# Two events of one disk that are so near each other, in σ / v, may come in either order.
TIE = 0.02


@dataclass
class Windows:
    """What was found so far; times are in σ / v."""

    same: list[tuple[float, float]] = field(default_factory=list)  # when in its window, and how much later the other has it
    length: float = 0.0
    count: int = 0
    explained: int = 0
    uncompared: int = 0
    unexplained: list[str] = field(default_factory=list)

    def add(self, exact: Iterator[tuple[float, int, int]], other: list[tuple[float, int, int]], begun: str) -> None:
        """One window, with the events of both in their order; the second disk of a wall is -1 less its side."""
        waiting: dict[int, deque[int]] = {}
        for place, event in enumerate(other):
            for disk in disks_of(event):
                waiting.setdefault(disk, deque()).append(place)
        parted: set[int] = set()
        self.count += 1
        for event in exact:
            time, disks = event[0], disks_of(event)
            nexts = [waiting[disk][0] if waiting.get(disk) else None for disk in disks]
            is_same = nexts[0] is not None and len(set(nexts)) == 1 and disks_of(other[nexts[0]], True) == disks_of(event, True)
            if parted.intersection(disks) or not is_same:
                self.part(event, parted, [other[it][0] for it in nexts if it is not None], begun)
                parted.update(disks)
                continue
            self.same.append((time, other[nexts[0]][0] - time))
            for disk in disks:
                waiting[disk].popleft()

    def part(self, event: tuple[float, int, int], parted: set[int], times: list[float], begun: str) -> None:
        """Counts an event that the other code hasn't as the next of its disks, by when it has their next ones."""
        time = event[0]
        if parted.intersection(disks_of(event)) or time > self.length - TIE:
            self.uncompared += 1
        elif any(abs(it - time) <= TIE for it in times):
            self.explained += 1
        else:
            first, second = event[1:]
            whom = f"disks {first} and {second}" if second >= 0 else f"disk {first} and side {-1 - second}"
            self.unexplained.append(f"{whom} meet {time:.4g} sigma/v after {begun}, and the other code has nothing near")

    def table(self) -> Table:
        times, late = np.array(self.same).reshape(-1, 2).T
        part = np.minimum((times / self.length * PARTS).astype(int), PARTS - 1)
        rows = []
        for it in range(PARTS):
            away = np.abs(late[part == it])
            if len(away):
                rows.append(((it + 0.5) * self.length / PARTS, len(away), float(np.median(away)), float(away.max())))
        notes = [
            f"{self.count} windows of {self.length:.4g} sigma/v: {len(self.same)} events are the same, {self.explained} part beside"
            f" another event of the same disks within {TIE:g} sigma/v, and {len(self.unexplained)} part without",
            f"{self.uncompared} more are of disks that parted before, or in the last {TIE:g} of a window; time is that in a window",
            *(f"CAUTION: {it}" for it in self.unexplained[:TOLD]),
        ]
        return Table(["time", "events", "late_median", "late_most"], rows, notes)


def disks_of(event: tuple[float, int, int], with_side: bool = False) -> tuple[int, ...]:
    """The disks of an event in order, or these and its side."""
    first, second = event[1:]
    return tuple(sorted((first, second))) if second >= 0 else (first, second) if with_side else (first,)


def read_numbers(path: str, names: str) -> np.ndarray:
    """Comma-separated values with these columns, in this order; a first line of names may stand above."""
    with open(path, encoding="utf-8") as file:
        has_names = file.readline().startswith(names[0])
    try:
        found = np.loadtxt(path, delimiter=",", skiprows=int(has_names), ndmin=2)
    except ValueError as why:
        raise Refused(f"{path}: {why}") from why
    if found.shape[1] != len(names.split(",")):
        raise Refused(f"{path}: lines have {found.shape[1]} numbers, and {names} are wanted")
    return found


def exact_events(scene: Scene, program: str) -> Iterator[tuple[float, int, int]]:
    """The events of a scene's run, in σ / v."""
    with report_of(scene, program) as report:
        for events in Run(scene, report).events():
            second = np.where(events[:, 4] < 0, -1 - events[:, 2], events[:, 4])
            yield from zip((events[:, 0] / scene.time).tolist(), events[:, 3].tolist(), second.tolist())


def compare(events: np.ndarray, states: np.ndarray, width: float, height: float, program: str) -> Windows:
    """The windows between states: rows of t, x, y, vx, vy and the diameter, by their time; events are rows of t and two disks."""
    starts = np.flatnonzero(np.append(True, np.diff(states[:, 0]) != 0))
    if len(starts) < 2:
        raise Refused("two states or more are wanted: a window lies between two")
    found = Windows()
    for place, later in zip(starts, starts[1:]):
        begun, disks = states[place, 0], states[place:later, 1:]
        # The units of reduced time, in that of the other code.
        unit = disks[:, 4].mean() / np.sqrt((disks[:, 2:4] ** 2).mean())
        found.length = (states[later, 0] - begun) / unit
        try:
            scene = fit(width, height, disks, found.length)
        except Refused as why:
            found.unexplained.append(f"the state at {begun:.6g} can't be: {why}")
            continue
        # Events behind the window's end tell what the last ones in it are.
        near = events[(events[:, 0] >= begun) & (events[:, 0] < begun + (found.length + TIE) * unit)]
        others = [((time - begun) / unit, int(first), int(second)) for time, first, second in near]
        found.add(exact_events(scene, program), others, f"{begun:.6g}")
    return found

"""Where disks are between their collisions: many collisions are followed at once, exactly, in whole numbers."""
from dataclasses import dataclass
from typing import Sequence

import numpy as np

from .scenes import Refused, Scene


@dataclass
class Followed:
    """Collisions with what was before them: each array has a row for each collision, in the report's order.

    Places are in units, velocities in units per tick. Of a collision with a side `second` is -1, and what stands there of a
    second disk has no meaning."""

    tick: np.ndarray
    side: np.ndarray
    first: np.ndarray
    second: np.ndarray
    place_first: np.ndarray
    place_second: np.ndarray
    before_first: np.ndarray
    after_first: np.ndarray
    before_second: np.ndarray

    @property
    def is_pair(self) -> np.ndarray:
        return self.second >= 0


@dataclass
class Turns:
    """Changes of velocity, sorted by disk, then by their order: when, where, and the velocities before and after."""

    disk: np.ndarray
    tick: np.ndarray
    place: np.ndarray
    before: np.ndarray
    after: np.ndarray

    def last(self, disks: int, tick: int) -> tuple[np.ndarray, np.ndarray]:
        """Which disks turned before a tick, and the last turn of each of these."""
        # No tick has more than 41 bits, and no disk's number more than 16.
        each = np.arange(disks)
        found = np.searchsorted((self.disk << 41) + self.tick, (each << 41) + tick) - 1
        turned = np.flatnonzero((found >= 0) & (self.disk[found] == each))
        return turned, found[turned]


class Motion:
    """Of each disk its place at the tick `since`, and its velocity from then on."""

    def __init__(self, scene: Scene):
        rows = np.array([row[:4] for row in scene.disks], np.int64).reshape(-1, 4)
        self.place, self.velocity = rows[:, :2].copy(), rows[:, 2:].copy()
        self.since = np.zeros(len(rows), np.int64)

    def at(self, tick: int) -> np.ndarray:
        """Rows of x, y, vx and vy at a tick, if nothing happens before."""
        return np.hstack([self.place + self.velocity * (tick - self.since)[:, None], self.velocity])

    def among(self, turns: Turns, tick: int) -> np.ndarray:
        """The same, where this happens before."""
        rows = self.at(tick)
        disks, last = turns.last(len(rows), tick)
        after = turns.after[last]
        rows[disks] = np.hstack([turns.place[last] + after * (tick - turns.tick[last])[:, None], after])
        return rows

    def follow(self, events: np.ndarray, ticks: Sequence[int] = ()) -> tuple[Followed, list[np.ndarray]]:
        """Collisions, in their order, and all disks at some ticks that are no later than the last of these; the disks are
        set on."""
        # Both disks of each in turn; a side is none.
        disk = events[:, 3:5].ravel()
        moved = np.flatnonzero(disk >= 0)
        # Numbers of disks have 16 bits, which are sorted without comparing.
        moved = moved[np.argsort(disk[moved].astype(np.uint16), kind="stable")]
        turns = self.turns(disk[moved], events[moved // 2, 0], events[:, 5:9].reshape(-1, 2)[moved])
        place, before = np.zeros((2, 2 * len(events), 2), np.int64)
        place[moved], before[moved] = turns.place, turns.before
        found = Followed(*events[:, [0, 2, 3, 4]].T, place[::2], place[1::2], before[::2], events[:, 5:7], before[1::2])
        rows = [self.among(turns, tick) for tick in ticks]
        self.set_on(turns)
        return found, rows

    def turns(self, disk: np.ndarray, tick: np.ndarray, after: np.ndarray) -> Turns:
        """Changes of velocity, which are sorted, with what was before each."""
        begins = np.append(True, disk[1:] != disk[:-1])
        last_tick = np.where(begins, self.since[disk], np.roll(tick, 1))
        before = np.where(begins[:, None], self.velocity[disk], np.roll(after, 1, axis=0))
        if (tick < last_tick).any():
            raise Refused("the report's ticks fall")
        steps = before * (tick - last_tick)[:, None]
        moved = np.cumsum(steps, axis=0)
        starts = np.flatnonzero(begins)
        counts = np.diff(np.append(starts, len(disk)))
        place = self.place[disk] + moved - np.repeat(moved[starts] - steps[starts], counts, axis=0)
        return Turns(disk, tick, place, before, after)

    def set_on(self, turns: Turns) -> None:
        """Has each disk go on from the last of its turns."""
        ends = np.flatnonzero(np.append(turns.disk[1:] != turns.disk[:-1], True))
        disks = turns.disk[ends]
        self.place[disks], self.velocity[disks], self.since[disks] = turns.place[ends], turns.after[ends], turns.tick[ends]

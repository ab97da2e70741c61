"""Scenes of hard_disks, and the units that belong to them.

A scene's own numbers are whole: units of length, ticks, units per tick. Reduced numbers are in the mean diameter σ, the
thermal speed v (the root mean square of a velocity component) and the time σ / v; all disks have the mass 1."""
import math
from dataclasses import dataclass, field, replace
from functools import cached_property

# The greatest numbers that a scene may have: docs/SPECIFICATION.md, section 1.
MOST_WIDTH, MOST_SPEED, MOST_ROUNDS, MOST_TICK, MOST_DISKS = 2**30, 2**20, 65_536, 2**40, 65_536
# The least and the greatest number of each key.
RANGES = {
    "width": (2, MOST_WIDTH),
    "height": (2, MOST_WIDTH),
    "diameter": (2, MOST_WIDTH),
    "speed_limit": (1, MOST_SPEED),
    "round_limit": (1, MOST_ROUNDS),
    "end": (0, MOST_TICK),
}


class Refused(Exception):
    """What was asked for, or what was read, can't be used; the message is one line."""


@dataclass(frozen=True)
class Scene:
    """A scene; `disks` has rows of x, y, vx, vy and the disk's own diameter."""

    width: int
    height: int
    diameter: int
    speed_limit: int
    round_limit: int
    end: int
    every: int | None
    disks: tuple[tuple[int, int, int, int, int], ...]
    # Whether it goes on from an earlier run, so that its start is no beginning.
    goes_on: bool = field(default=False, compare=False)

    @cached_property
    def sigma(self) -> float:
        """The mean diameter, in units: the unit of length of all reduced numbers."""
        return sum(row[4] for row in self.disks) / len(self.disks) if self.disks else float(self.diameter)

    @cached_property
    def speed(self) -> float:
        """The thermal speed at the start, in units per tick: the root mean square of a velocity component."""
        squares = sum(row[2] ** 2 + row[3] ** 2 for row in self.disks)
        if not squares:
            raise Refused("no disk of the scene moves, so it has no unit of time")
        return math.sqrt(squares / (2 * len(self.disks)))

    @property
    def time(self) -> float:
        """The unit of reduced time σ / v, in ticks."""
        return self.sigma / self.speed

    @property
    def has_one_size(self) -> bool:
        return len({row[4] for row in self.disks}) <= 1

    @property
    def phi(self) -> float:
        """The packing fraction over the whole box."""
        return sum(math.pi * row[4] ** 2 / 4 for row in self.disks) / (self.width * self.height)

    def ticks(self, time: float) -> int:
        """A reduced time as the nearest number of ticks."""
        ticks = time * self.time
        if not 0 <= ticks <= MOST_TICK:
            raise Refused(f"a time of {time:g} is {ticks:.4g} ticks, and a scene has 0 to {MOST_TICK}")
        return round(ticks)

    def reduced_time(self, tick: float) -> float:
        """A tick as a reduced time, with as few digits as keep it to a tenth of a tick or a hundred thousandth: v was rounded,
        so that 5,000 ticks may be 0.499999 where 0.5 was asked for."""
        time = tick / self.time
        allowed = max(0.1 / self.time, 1e-5 * time)
        return next(short for digits in range(20) if abs((short := round(time, digits)) - time) <= allowed)

    def reduced(self, frame=None):
        """The rows x, y, vx, vy of a frame, or of the start, as an array in σ and v."""
        import numpy

        rows = numpy.array([row[:4] for row in self.disks], float).reshape(-1, 4) if frame is None else frame
        return rows / [self.sigma, self.sigma, self.speed, self.speed]

    def text(self) -> str:
        """The canonical text."""
        lines = [f"{key} = {getattr(self, key)}" for key in RANGES]
        if self.every is not None:
            lines.append(f"every = {self.every}")
        lines.append("disks = [")
        for *numbers, size in self.disks:
            row = numbers if size == self.diameter else [*numbers, size]
            lines.append(f"  [{', '.join(map(str, row))}],")
        return "\n".join([*lines, "]"]) + "\n"

    def timed(self, time: float, every: float | None) -> "Scene":
        """The same scene with an end, and states every so often, in reduced time; `every` may be None."""
        end, between = self.ticks(time), None if every is None else self.ticks(every)
        if between == 0:
            raise Refused(f"every {every:g} is less than a tick")
        if between is not None and abs(time / every - round(time / every)) < 1e-9:
            # As many whole spaces as are asked for, so that the end is the last of the evenly spaced states.
            end = min(round(time / every) * between, MOST_TICK)
        return replace(self, end=end, every=between)

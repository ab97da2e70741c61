"""What all measures share: which part of the box and of the run counts, and tables."""
import csv
from dataclasses import dataclass, field
from typing import TextIO

import numpy as np

from .scenes import Refused, Scene

# Of how many blocks of time sums are kept, from which errors make longer ones; and how many there may be.
BLOCKS, MOST_BLOCKS = 240, 10_000
# The margin that is left out where none is asked for, in σ; a denser fluid keeps the walls' order to the depths below, by
# its packing fraction. At 0.69 Z of all that is 10 σ and more from the walls is 0.5 % too small, and from 20 σ on it is right.
MARGIN = 10.0
DENSE, DEPTHS = (0.65, 0.69), (10.0, 20.0)


def wall_depth(scene: Scene) -> float:
    """How far from the walls their order reaches, in σ; 0 where the least of margins is enough, as in a mixture."""
    return float(np.interp(scene.phi, DENSE, DEPTHS, left=0.0)) if scene.has_one_size else 0.0


@dataclass(frozen=True)
class Sampling:
    """The part of a run that is measured: from the tick `start` on, and `margin` units away from the walls.

    Sums are kept for each of some `blocks` of time."""

    scene: Scene
    start: int
    margin: float
    blocks: int

    def __post_init__(self):
        if not 0 <= self.start < self.scene.end:
            raise Refused(f"the measure would begin at tick {self.start}, and the run ends at {self.scene.end}")
        if not 0 <= self.margin < min(self.scene.width, self.scene.height) / 2:
            raise Refused(f"a margin of {self.margin / self.scene.sigma:.4g} sigma leaves nothing of the box")
        if not 2 <= self.blocks <= MOST_BLOCKS:
            raise Refused(f"there may be 2 to {MOST_BLOCKS} blocks, not {self.blocks}")

    def block(self, tick: int | np.ndarray):
        """The block of the run to which a tick belongs, from 0 on; the end belongs to the last one."""
        whole = (tick - self.start) * self.blocks // (self.scene.end - self.start)
        return np.minimum(whole, self.blocks - 1)

    def block_time(self) -> float:
        """How long a block is, in ticks."""
        return (self.scene.end - self.start) / self.blocks

    def inside(self, places: np.ndarray, more: float = 0.0) -> np.ndarray:
        """Which rows of x and y are at least the margin, and some units more, away from all walls."""
        away, box = self.margin + more, np.array([self.scene.width, self.scene.height])
        return ((places >= away) & (places <= box - away)).all(axis=1)

    def area(self) -> float:
        """The area that is `inside`."""
        return (self.scene.width - 2 * self.margin) * (self.scene.height - 2 * self.margin)

    def notes(self) -> list[str]:
        scene = self.scene
        unit = "the diameter" if scene.has_one_size else "the mean diameter"
        return [
            f"sigma = {scene.sigma:.10g} units, {unit}; v = {scene.speed:.6g} units per tick; sigma/v = {scene.time:.6g} ticks",
            f"{len(scene.disks)} disks; from {self.start / scene.time:.4g} to {scene.end / scene.time:.4g} sigma/v;"
            f" {self.margin / scene.sigma:.4g} sigma along the walls are left out",
            *self.cautions(),
        ]

    def cautions(self) -> list[str]:
        """That the margin is too small near freezing, if it is."""
        depth = wall_depth(self.scene)
        if self.margin >= 0.999 * depth * self.scene.sigma:
            return []
        return [
            f"CAUTION: at this phi the walls' order reaches some {depth:.3g} sigma, as measure profile shows: take a greater box"
        ]


def sampling(scene: Scene, start: float | None = None, margin: float | None = None, blocks: int = BLOCKS) -> Sampling:
    """The sampling with a start in σ / v (else a fifth of the run, or at once if it goes on) and a margin in σ (else 10,
    near freezing up to 20, or a quarter of the box).

    At φ = 0.6 the layers that disks form along walls reach some 8 σ into the box."""
    most = min(scene.width, scene.height) / 4
    return Sampling(
        scene,
        (0 if scene.goes_on else scene.end // 5) if start is None else scene.ticks(start),
        min(max(MARGIN, wall_depth(scene)) * scene.sigma, most) if margin is None else margin * scene.sigma,
        blocks,
    )


def bin_edges(most: float, width: float) -> np.ndarray:
    """The edges of bins of a width from 0 to `most`."""
    if not 1 <= most / width <= 100_000:
        raise Refused(f"bins of {width:g} up to {most:g} aren't 1 to 100000 bins")
    return np.arange(0, most + width / 2, width)


class Definition(str):
    """A note that says what columns are."""


class OfErrors(str):
    """A note on how sure the numbers of one run are. Of several runs nothing of that is said: their spread is."""


@dataclass(frozen=True)
class Stated:
    """A note about a number that has an error; `after` is what else it says."""

    name: str
    value: float
    error: float
    after: str = ""

    def __contains__(self, words: str) -> bool:
        return words in str(self)

    def __str__(self) -> str:
        return f"{self.name} = {as_text(self.value, 5)} +/- {as_text(self.error, 2)}{self.after}"


@dataclass
class Table:
    """Columns of numbers, and notes that stand above them."""

    columns: list[str]
    rows: list
    notes: list[str | Stated] = field(default_factory=list)

    def write(self, out: TextIO) -> None:
        self.write_notes(out)
        csv.writer(out, lineterminator="\n").writerow(self.columns)
        self.write_rows(out)

    def write_notes(self, out: TextIO) -> None:
        out.writelines(f"# {note}\n" for note in self.notes)

    def write_rows(self, out: TextIO) -> None:
        csv.writer(out, lineterminator="\n").writerows([as_text(value) for value in row] for row in self.rows)


def as_text(value: float, digits: int = 6) -> str:
    """A number with some digits, unless it is whole by its type."""
    if isinstance(value, (int, np.integer)):
        return str(value)
    return f"{value:.{digits}g}" if np.isfinite(value) else "unknown"


def rough(value: float) -> str:
    """A number to two digits, without a power of ten."""
    return f"{float(f'{value:.2g}'):g}"

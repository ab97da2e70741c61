"""How the packing fraction varies from place to place."""
import math

import numpy as np

from .measuring import Measure
from .runs import Frame
from .sampling import Sampling, Stated, Table
from .scenes import Refused

# The width of a bin of packing fractions.
STEP = 0.02


class LocalFraction(Measure):
    """The packing fractions of squares of a side `width`, in σ, that fill the inside: those of disks whose centres are in
    one. What is left at two sides is shared out, so squares may be somewhat greater."""

    def __init__(self, sampling: Sampling, width: float = 5.0):
        super().__init__(sampling)
        scene = self.scene
        sides = np.array([scene.width, scene.height]) - 2 * sampling.margin
        self.counts = (sides / (width * scene.sigma)).astype(int)
        if not self.counts.all():
            raise Refused(f"the inside is smaller than a square of {width:g} sigma")
        self.sides = sides / self.counts
        self.covered = np.array([math.pi / 4 * row[4] ** 2 for row in scene.disks])
        self.found = np.zeros((sampling.blocks, math.ceil(1 / STEP)))
        # Of the squares of each block their number, and the sums of φ and of its square.
        self.squares, self.first, self.second = np.zeros((3, sampling.blocks))

    def add_state(self, frame: Frame) -> None:
        sampling, block = self.sampling, self.sampling.block(frame.tick)
        inside = sampling.inside(frame.rows[:, :2])
        place = ((frame.rows[inside, :2] - sampling.margin) / self.sides).astype(int)
        place = np.minimum(place, self.counts - 1)
        covered = np.bincount(place[:, 0] * self.counts[1] + place[:, 1], self.covered[inside], self.counts.prod())
        fractions = covered / self.sides.prod()
        bins = np.minimum(fractions / STEP, self.found.shape[1] - 1).astype(int)
        self.found[block] += np.bincount(bins, minlength=self.found.shape[1])
        self.squares[block] += len(fractions)
        self.first[block] += fractions.sum()
        self.second[block] += (fractions**2).sum()

    def table(self) -> Table:
        density, errors = self.errors.of(np.divide, self.found, self.squares[:, None] * STEP)
        middles = (np.arange(self.found.shape[1]) + 0.5) * STEP
        sums = self.squares, self.first, self.second
        spread = self.errors.of(lambda count, first, second: np.sqrt(second / count - (first / count) ** 2), *sums)
        sides = " times ".join(f"{side:.4g}" for side in self.sides / self.scene.sigma)
        notes = [f"squares of {sides} sigma; a disk is in that which has its centre", Stated("spread of phi", *map(float, spread))]
        return Table(["phi_local", "share", "share_error"], list(zip(middles, density, errors)), [*notes, *self.notes()])

"""Which sizes are inside, where disks have several. Sizes mix by diffusion alone, which takes L² / (4 π² D) in a box of the
width L: far longer than heat. So a run keeps the share of each size that its inside had at the start, and another seed has
another one; what is measured follows it, and no series of one run says by how much.

The spread over seeds is that of drawing the disks inside from all, and hydrodynamics says what is left of it in a mean over
time, as of heat. How the packing fraction, Z and the rate follow is by the equation of state of mixtures, at one pressure;
how g(r) follows is by its parts; how the order follows is by regression over squares of the inside."""
import math

import numpy as np

from .heat import DENSEST, left_in_mean
from .sampling import OfErrors, Sampling, rough
from .theory import diffusion, mixture_of

# A column for each size has a scene of so many sizes at most.
MOST_SIZES = 3
# The shares are forgotten after so many times of mixing.
MIXED = 5
# How wide squares are in which disks are looked at together, in σ; there are two along a side at least.
WIDTH = 6.0
# By how much a moment of the sizes is changed to see what follows, as a share of it.
STEP = 1e-4


class Composition:
    """How often each disk was inside, and what follows that."""

    def __init__(self, sampling: Sampling):
        self.sampling, scene = sampling, sampling.scene
        self.diameters = np.array([row[4] for row in scene.disks]) / scene.sigma
        self.presence, self.looks = np.zeros(len(self.diameters)), 0

    def add(self, inside: np.ndarray) -> None:
        self.presence += inside
        self.looks += 1

    def phi(self) -> float:
        """The mean packing fraction inside; of the whole box if nothing says which disks are inside."""
        scene = self.sampling.scene
        if not self.looks:
            return scene.phi
        return float(math.pi / 4 * (self.presence @ self.diameters**2) * scene.sigma**2 / self.looks / self.sampling.area())

    def columns(self) -> tuple[list[str], list[float]]:
        """The share of each size in the disks inside, of two or three sizes, with the names of the columns."""
        sizes, number = np.unique(self.diameters, return_inverse=True)
        if not 2 <= len(sizes) <= MOST_SIZES:
            return [], []
        total = self.presence.sum()
        shares = np.bincount(number, self.presence) / total if total else np.full(len(sizes), np.nan)
        return [f"share_{it}" for it in range(len(sizes))], shares.tolist()

    def time(self) -> float:
        """How long mixing takes, in σ / v, by Enskog's D."""
        scene = self.sampling.scene
        return (max(scene.width, scene.height) / scene.sigma / (2 * math.pi)) ** 2 / diffusion(min(self.phi(), DENSEST))

    def notes(self, has_part: bool = True) -> list[str]:
        """That errors have a part of this, or lack it, until sizes are mixed."""
        scene = self.sampling.scene
        if scene.has_one_size:
            return []
        measured = (scene.end - self.sampling.start) / scene.time
        if measured >= MIXED * self.time():
            return []
        known = "errors but P's have a part of that by theory" if has_part else "errors are too small: take several seeds"
        said = (
            f"CAUTION: sizes mix in some {rough(self.time())} sigma/v, of which the measure would have to last {MIXED}: what"
            f" follows their shares inside is that of this seed, and {known}"
        )
        return [said if has_part else OfErrors(said)]

    def errors(self) -> np.ndarray:
        """What the shares add to the errors of φ, Z by the virial and by the walls, and the rate."""
        if self.sampling.scene.has_one_size:
            return np.zeros(4)
        phi = min(self.phi(), DENSEST)
        follows = slopes(phi, *self.moments()).T @ [self.diameters, self.diameters**2]
        return np.sqrt(self.drawn(follows, self.inside()))[[0, 1, 1, 2]]

    def inside(self) -> float:
        """The mean number of disks inside."""
        scene = self.sampling.scene
        share = self.sampling.area() / (scene.width * scene.height)
        return float(self.presence.sum() / self.looks) if self.looks else len(self.diameters) * share

    def moments(self) -> tuple[float, float]:
        """The mean diameter, and the mean squared one."""
        return float(self.diameters.mean()), float((self.diameters**2).mean())

    def densities(self) -> np.ndarray:
        """Of each disk by how much more of its size changes the logarithm of the number of disks by area, at one pressure."""
        phi, square = min(self.phi(), DENSEST), self.moments()[1]
        return slopes(phi, *self.moments())[:, 0] @ [self.diameters, self.diameters**2] / phi - self.diameters**2 / square

    def drawn(self, follows: np.ndarray, number: float, others: float | None = None) -> np.ndarray:
        """The variance over seeds of what follows which disks are drawn, so many from some others, or from all, in the mean
        over the time of the measure: by how much the mean of those drawn differs from that of the others. `follows` has rows
        with a value for each disk."""
        scene, sampling = self.sampling.scene, self.sampling
        others = len(self.diameters) if others is None else others
        if not 0 < number < others:
            return np.zeros(len(follows))
        left = left_in_mean(sampling, diffusion(min(self.phi(), DENSEST)), (scene.end - sampling.start) / scene.time)
        return follows.var(axis=1) * (1 / number - 1 / others) * left


class Squares:
    """How means over disks follow the mean diameter, in σ: by squares of the inside, in each of which it is another one."""

    def __init__(self, composition: Composition, values: int):
        sampling = composition.sampling
        sides = np.array([sampling.scene.width, sampling.scene.height]) - 2 * sampling.margin
        self.composition, self.counts = composition, np.maximum(sides / (WIDTH * sampling.scene.sigma), 2).astype(int)
        self.sides = sides / self.counts
        # The sums over squares and looks of the squared difference of the diameter from its mean, and of its product with values.
        self.square, self.products = 0.0, np.zeros(values)

    def add(self, places: np.ndarray, is_inside: np.ndarray, values: np.ndarray) -> None:
        """Values of the disks inside, in columns."""
        x, y = ((places - self.composition.sampling.margin) / self.sides).astype(int).clip(0, self.counts - 1).T
        square, diameters = x * self.counts[1] + y, self.composition.diameters[is_inside]
        numbers = np.maximum(np.bincount(square), 1)
        apart = (np.bincount(square, diameters) / numbers - diameters.mean())[square]
        self.square += apart @ apart
        self.products += apart @ values

    @property
    def is_known(self) -> bool:
        """Whether squares differ by more than roundings do."""
        return self.square > 1e-12

    def errors(self) -> np.ndarray:
        """What the shares add to the errors of the means."""
        if not self.is_known:
            return np.zeros(len(self.products))
        follows = np.outer(self.products / self.square, self.composition.diameters)
        return np.sqrt(self.composition.drawn(follows, self.composition.inside()))


def slopes(phi: float, mean: float, square: float) -> np.ndarray:
    """By the mean diameter, and by the mean squared one: the slopes of φ, Z and the rate at one pressure."""

    def pressure(phi, mean, square):
        return 4 * phi / (math.pi * square) * mixture_of(phi, mean, square)

    def slope(function, at):
        return (function(at * (1 + STEP)) - function(at * (1 - STEP))) / (2 * STEP * at)

    factor, stiffness = mixture_of(phi, mean, square), slope(lambda it: pressure(it, mean, square), phi)
    found = []
    for of_pressure, of_square, of_reach in [
        (slope(lambda it: pressure(phi, it, square), mean), 0, 2 * mean / (square + mean**2) - 1 / mean),
        (slope(lambda it: pressure(phi, mean, it), square), 1 / square, 1 / (square + mean**2)),
    ]:
        of_phi = -of_pressure / stiffness
        # At one pressure Z goes with the area of a disk.
        of_factor = factor * (of_square - of_phi / phi)
        # The virial of a collision is by the mean distance of two disks that touch: (⟨σ²⟩ + ⟨σ⟩²) / 2 ⟨σ⟩.
        rate = 4 / math.sqrt(math.pi) * (factor - 1) * 2 * mean / (square + mean**2)
        found.append([of_phi, of_factor, rate * (of_factor / (factor - 1) - of_reach)])
    return np.array(found)

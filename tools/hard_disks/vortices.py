"""The vortices of a box: what carries many disks along, and goes by viscosity alone.

Walls only turn velocities round, so flows slip along them, and each flow that fits the box is one of
ky sin(kx x) cos(ky y) along x and -kx cos(kx x) sin(ky y) along y. In equilibrium it has the energy of any freedom, T / 2, and falls
as exp(-ν k² t): the slowest one in L² / (2 π² ν), some 80 σ/v for 1,000 disks at φ = 0.35. What it carries a disk along is a
part of the disk's displacement, and the same for all disks of a run. So over a time that isn't much longer a run has the
vortices that it happened to have, and no series of it says by how much other runs have others. Hydrodynamics does: what the
series of a run shows of them on average is taken off what they make, and the rest is a part of the error."""
import math
from functools import lru_cache

import numpy as np

from .heat import DENSEST, left_in
from .sampling import Sampling
from .spectra import cosines, slowest
from .theory import viscosity

# How many vortices along each side are looked at.
MOST = 8
# At how many places along the inside flows are compared; in how many blocks a series is looked at; and for how many rates.
PLACES, BLOCKS, RATES = 64, 96, 40


class Vortices:
    """Those of a box, and how they move the disks inside, in σ, v and the disks' mass."""

    def __init__(self, sampling: Sampling, phi: float):
        scene, phi = sampling.scene, min(phi, DENSEST)
        width, height, margin = (it / scene.sigma for it in (scene.width, scene.height, sampling.margin))
        (kx, sines_x, cosines_x), (ky, sines_y, cosines_y) = overlaps(width, margin), overlaps(height, margin)
        x, y = (it.ravel() for it in np.meshgrid(kx, ky, indexing="ij"))
        size = np.hypot(x, y)
        # How fast each falls, by Enskog's viscosity.
        self.rates = viscosity(phi) / (4 * phi / math.pi) * size**2
        # The mean of the product of two flows over the inside, each with the mean square 1 / N over the box.
        along = np.outer(y, y) * np.kron(sines_x, cosines_y) + np.outer(x, x) * np.kron(cosines_x, sines_y)
        self.products = 4 * along / np.outer(size, size) / len(scene.disks)

    def ways(self, times: np.ndarray) -> np.ndarray:
        """By how much each two move disks in these times: the root mean squares of their ways, multiplied."""
        ways = times[:, None] * np.sqrt(left_in(np.outer(times, self.rates)))
        return ways[:, :, None] * ways[:, None]

    def integrals(self, times: np.ndarray) -> np.ndarray:
        """The same of their velocities by their ways, half of which is their part of D."""
        ways = (1 - np.exp(-np.outer(times, self.rates))) / self.rates / 2
        return (ways[:, :, None] + ways[:, None]) / 2

    def unseen(self, moved: np.ndarray, measured: float, count: int) -> float:
        """The error of a mean that each two move by so much, as far as the slowest waves, as many as count, of a series over the
        time measured don't show it."""
        # The product of two amplitudes that are normal has the variance 1, the square of one has 2.
        variances = 2 * (self.products * moved) ** 2
        steps = np.add.outer(self.rates, self.rates) * measured
        return math.sqrt((variances * np.maximum(left_in(steps) - seen(steps, count), 0)).sum())


def overlaps(length: float, margin: float) -> tuple[np.ndarray, np.ndarray, np.ndarray]:
    """Along a side the wave numbers of flows, and the means over the inside of products of two sines and of two cosines."""
    number = math.pi / length * np.arange(1, MOST + 1)
    phases = np.outer(number, margin + (np.arange(PLACES) + 0.5) / PLACES * (length - 2 * margin))
    return number, *(wave @ wave.T / PLACES for wave in (np.sin(phases), np.cos(phases)))


def seen(steps: np.ndarray, count: int) -> np.ndarray:
    """Which share of the variance of what falls exponentially, in so many steps over a series, its slowest waves say on average
    that the mean has."""
    steps_known, shares = seen_shares(count)
    return np.interp(np.log(np.maximum(steps, steps_known[0])), np.log(steps_known), shares)


@lru_cache(maxsize=None)
def seen_shares(count: int) -> tuple[np.ndarray, np.ndarray]:
    apart = np.abs(np.subtract.outer(np.arange(BLOCKS), np.arange(BLOCKS))) / BLOCKS
    steps, waves = np.geomspace(1e-2, 1e4, RATES), cosines(np.eye(BLOCKS), count)
    return steps, np.array([slowest(np.einsum("wi,ij,wj->w", waves, np.exp(-it * apart), waves)[:, None])[0] for it in steps])

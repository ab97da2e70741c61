"""The heat of the inside: the one thing in a box of fluid that changes slowly, and that all other things follow.

Sound evens out pressure within some widths of the box over the speed of sound. What is left is a fluid that is here warmer
and thinner, there cooler and denser, at one pressure; that goes by conduction alone, which takes L² / (4 π² D_T) for a
wave that fits the box of the width L: 18 σ/v for 2,000 disks at φ = 0.5. (L. D. Landau and G. Placzek; see J. P. Hansen and
I. R. McDonald, Theory of Simple Liquids, the chapter on hydrodynamics.) So a mean over a time that isn't much longer than
that depends on how warm the inside happened to be, and no blocks of that time can say by how much. Hydrodynamics can: it
says which share of the variance at one time is left in the mean.

D_T is by Enskog's conductivity of hard disks (D. M. Gass, Journal of Chemical Physics 54, 1898, 1971; its numbers are given
here from memory), times a factor that was measured here."""
import math
from dataclasses import dataclass
from functools import cached_property

import numpy as np

from .order import Order
from .sampling import Sampling
from .theory import reference

# How many waves along each side are looked at.
WAVES = 24
# The equation of state is that of a fluid. What is denser is taken to be like the densest.
DENSEST = 0.69
# By how much heat leaves faster than by Enskog's conductivity: what is left of it in means over 8 to 96 σ/v says 1.25 to 1.3,
# in 49 runs of 2,000 disks at φ = 0.5. The script tools/tests/heat_factor.py, in as many again, says 1.0 to 1.4, each to 0.15.
FASTER = 1.25
# What share of the time that sound takes to cross the box is short beside the time of heat.
SHORT = 0.25


@dataclass(frozen=True)
class Fluid:
    """Hydrodynamics of hard disks at a packing fraction, in σ, v and their mass."""

    phi: float

    @property
    def factor(self) -> float:
        """Z."""
        return reference(self.phi)

    @property
    def stiffness(self) -> float:
        """The slope of P by the density at constant temperature."""
        step = 1e-4 * self.phi
        low, high = ((self.phi + it) * reference(self.phi + it) for it in (-step, step))
        return (high - low) / (2 * step)

    @property
    def heat_capacity(self) -> float:
        """Of a disk, at constant pressure; it is 1 at constant area."""
        return 1 + self.factor**2 / self.stiffness

    @property
    def expansion(self) -> float:
        """The slope of the packing fraction by the entropy of a disk, at constant pressure."""
        return -self.phi * self.factor / (self.factor**2 + self.stiffness)

    @property
    def sound_speed(self) -> float:
        return math.sqrt(self.stiffness + self.factor**2)

    @property
    def heat_diffusion(self) -> float:
        """D_T in σ v, by Enskog's conductivity."""
        excess = self.factor - 1
        conductivity = 1.029 * 2 / math.sqrt(math.pi) * 2 * self.phi * (1 / excess + 3 / 2 + 0.8718 * excess)
        return conductivity / (4 * self.phi / math.pi * self.heat_capacity)


def waves(length: float, margin: float) -> tuple[np.ndarray, np.ndarray]:
    """Of the cosine waves between two walls their wave numbers, and which share of the inside's fluctuations each makes.

    Waves that are odd about the middle have no part in it, as the margin is the same on both sides."""
    number = 2 * np.pi / length * np.arange(1, WAVES)
    share = 2 * ((np.sin(number * (length - margin)) - np.sin(number * margin)) / (number * length)) ** 2
    return np.append(0, number), np.append((1 - 2 * margin / length) ** 2, share)


def share_left(sampling: Sampling, fluid: Fluid, time: float) -> float:
    """Which share of the variance of the heat inside at one time is left in its mean over a time, in σ / v."""
    return left_in_mean(sampling, FASTER * fluid.heat_diffusion, time)


def left_in_mean(sampling: Sampling, diffusion: float, time: float) -> float:
    """The same of what goes by this diffusion, in σ v."""
    scene = sampling.scene
    (kx, share_x), (ky, share_y) = (waves(it / scene.sigma, sampling.margin / scene.sigma) for it in (scene.width, scene.height))
    share = np.outer(share_x, share_y)
    share[0, 0] = 0
    if share.sum() < 1e-12:
        return 0.0
    squares = kx[:, None] ** 2 + ky**2
    # Nothing goes faster than disks fly.
    steps = np.minimum(diffusion * squares, np.sqrt(squares)) * time
    return float((share * left_in(steps)).sum() / share.sum())


def left_in(steps: np.ndarray) -> np.ndarray:
    """Which share of the variance of what falls exponentially is left in its mean over a time in which it falls by so many
    steps."""
    steps = np.maximum(steps, 1e-4)
    return 2 * (steps - 1 + np.exp(-steps)) / steps**2


class Heat:
    """How many disks are inside and how fast they are, at all ticks that are shown. Only then it says what it found."""

    def __init__(self, sampling: Sampling):
        self.sampling, self.order = sampling, Order(sampling)
        self.rows: list[tuple[int, int, float]] = []

    def add(self, tick: int, rows: np.ndarray) -> None:
        """All disks at a tick, as rows of x, y, vx and vy; those before the sampling begins don't count."""
        inside = rows[self.sampling.inside(rows[:, :2])]
        self.add_inside(tick, len(inside), float((inside[:, 2:].astype(float) ** 2).sum()))
        self.order.add(tick, rows)

    def add_inside(self, tick: int, disks: int, squares: float) -> None:
        """How many disks are inside at a tick, and the sum of their squared speeds."""
        if disks and tick >= self.sampling.start:
            self.rows.append((tick, disks, squares))

    @cached_property
    def is_known(self) -> bool:
        """Whether it changes, so that something may follow it."""
        return len(self.rows) > 2 and self.entropy.std() > 0

    @cached_property
    def fluid(self) -> Fluid:
        """That of the mean packing fraction inside; of several sizes as if they were one."""
        scene, sampling = self.sampling.scene, self.sampling
        areas = [math.pi / 4 * row[4] ** 2 for row in scene.disks]
        disks = sum(row[1] for row in self.rows) / len(self.rows)
        return Fluid(min(disks * sum(areas) / len(areas) / sampling.area(), DENSEST))

    @cached_property
    def ticks(self) -> np.ndarray:
        return np.array([row[0] for row in self.rows])

    @cached_property
    def entropy(self) -> np.ndarray:
        """That of a disk inside at each tick, less its mean: δT / T - Z δρ / ρ, which sound leaves as it is."""
        _, disks, squares = np.array(self.rows, float).T
        temperature = squares / disks
        if not temperature.any():
            return np.zeros(len(disks))
        found = temperature / temperature.mean() - self.fluid.factor * disks / disks.mean()
        return found - found.mean()

    def until(self, end: float, most: int, lag: float = 0.0) -> np.ndarray | None:
        """Its means over blocks of time up to a tick, as many as there may be at most; none if one has no tick. That of a tick
        is the mean of all up to `lag` ticks later."""
        start, count = self.sampling.start, int(min(most, (self.ticks <= end).sum() / 2))
        block = ((self.ticks - start) / (end - start) * count).astype(int)
        block[self.ticks == end] = count - 1
        used = (block >= 0) & (block < count)
        numbers = np.bincount(block[used], minlength=count)
        if count < 1 or not numbers.all():
            return None
        sums = np.append(0, np.cumsum(self.entropy))
        first, last = np.arange(len(self.ticks)), np.searchsorted(self.ticks, self.ticks + lag, "right")
        means = (sums[last] - sums[first]) / (last - first)
        return np.bincount(block[used], means[used], count) / numbers

    def variance_of_mean(self, time: float) -> float:
        """That of the mean of the entropy over the time of the measure, in σ / v.

        It is by the variance of means over blocks that are short, but long beside what collisions even out."""
        scene, sampling = self.sampling.scene, self.sampling
        whole = (scene.end - sampling.start) / scene.time
        short = whole / max(int(whole / (self.times[0] * SHORT)), 1)
        means = self.until(scene.end, round(whole / short))
        left = share_left(sampling, self.fluid, time)
        if means is not None and len(means) > 1:
            left /= share_left(sampling, self.fluid, whole / len(means))
        else:
            means = self.entropy
        # The mean takes the same share off the variance about it.
        return float(means.var() * left / (1 - left)) if left < 1 else np.nan

    @cached_property
    def times(self) -> tuple[float, float]:
        """How long sound takes to cross the box, and heat to leave a wave that fits it, in σ / v."""
        scene, fluid = self.sampling.scene, self.fluid
        length = max(scene.width, scene.height) / scene.sigma
        return length / fluid.sound_speed, (length / (2 * math.pi)) ** 2 / (FASTER * fluid.heat_diffusion)

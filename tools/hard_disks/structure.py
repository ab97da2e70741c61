"""How disks lie: the pair distribution g(r), the structure factor S(k) and the bond order ψ6, by frames."""
from functools import partial
from typing import NamedTuple

import numpy as np
from numpy.polynomial import Polynomial

from .bonds import order_of
from .composition import Composition, Squares
from .errors import Errors
from .measuring import Measure
from .runs import Frame
from .sampling import Sampling, Stated, Table, bin_edges
from .scenes import Refused, Scene
from .theory import REFERENCE, cautions, contact
from .waves import Waves

# Up to which distance, in diameters, g is fitted to find it at contact.
FIT = 1.25
# How the Z that follows from that is called.
CONTACT_Z = "by that Z = 1 + 2 phi g"


class PairDistribution(Measure):
    """g(r) up to `most` in bins of a width, both in σ, and of two or three sizes that of each two of them.

    Disks inside, and at least `most` away from the walls, are looked at, with all neighbours in reach."""

    def __init__(self, sampling: Sampling, most: float = 5.0, width: float = 0.02):
        super().__init__(sampling)
        scene = self.scene
        if min(scene.width, scene.height) / 2 <= most * scene.sigma:
            raise Refused(f"the box is too small for distances up to {most} sigma")
        self.most, self.width = most, width
        # Just below the round numbers, so that disks that touch are in the bin from 1 on.
        self.edges = bin_edges(most, width) - 1e-9
        self.pairs = np.zeros((sampling.blocks, len(self.edges) - 1))
        self.looked_at, self.inside, self.frames = np.zeros((3, sampling.blocks, 1))
        self.partial, self.composition = Partial(scene, self.pairs.shape), Composition(sampling)

    def add_state(self, frame: Frame) -> None:
        from scipy.spatial import cKDTree

        sampling, sigma, places = self.sampling, self.scene.sigma, frame.rows[:, :2]
        block = sampling.block(frame.tick)
        is_chosen = sampling.inside(places, max(self.most * sigma - sampling.margin, 0))
        is_inside, chosen = sampling.inside(places), places[is_chosen]
        self.looked_at[block] += len(chosen)
        self.inside[block] += is_inside.sum()
        self.frames[block] += 1
        self.composition.add(is_inside)
        self.partial.look_at(block, is_chosen, is_inside)
        if len(chosen):
            near = cKDTree(chosen / sigma).sparse_distance_matrix(cKDTree(places / sigma), self.most, output_type="ndarray")
            # A disk is no neighbour of itself.
            near = near[near["v"] > 0]
            self.pairs[block] += np.histogram(near["v"], self.edges)[0]
            self.partial.add(block, np.flatnonzero(is_chosen)[near["i"]], near["j"], near["v"], self.edges)

    def table(self) -> Table:
        scene, sampling, edges = self.scene, self.sampling, self.edges
        area, shells = sampling.area() / scene.sigma**2, np.pi * np.diff(edges.clip(0) ** 2)
        frames, density = int(self.frames.sum()), self.inside.sum() / self.frames.sum() / area
        # Of each block by its own density: that of all changes with the same disks.
        ideal = Ideal(area, shells)
        g, errors = self.errors.of(ideal.ratio, self.pairs, self.looked_at, self.inside, self.frames)
        names, columns = self.partial.columns(self.errors, ideal, self.frames, edges)
        errors[edges[1:] <= self.partial.touching(0, 0)] = 0
        if self.partial.both:
            added = self.partial.of_shares(g, columns[::2], self.composition, float(self.looked_at.sum() / frames))
            errors, *columns[1::2] = [np.hypot(*it) for it in zip([errors, *columns[1::2]], added)]
        rows = list(zip(edges[:-1] + self.width / 2, g, errors, *columns))
        notes = [f"{frames} frames; g of the disks inside and {self.most:.4g} sigma from the walls; density {density:.6g} per sigma^2"]
        if scene.has_one_size and self.most > FIT:
            sums = self.pairs, self.looked_at, self.inside, self.frames
            notes += contact_notes(*self.errors.of(lambda *sums: at_contact(ideal, *sums, edges), *sums), np.pi / 4 * density)
        of_sizes, shares = self.composition.columns()
        rows, about = [(*row, *shares) for row in rows], [*self.partial.notes(), *self.composition.notes(bool(self.partial.both))]
        return Table(["r", "g", "g_error", *names, *of_sizes], rows, [*notes, *about, *self.notes()])


class Ideal(NamedTuple):
    """How many pairs there would be, if disks lay anywhere: by the area inside, and by the areas of shells around a disk."""

    area: float
    shells: np.ndarray

    def pairs(self, looked_at: np.ndarray, inside: np.ndarray, frames: np.ndarray) -> np.ndarray:
        return looked_at * inside / frames / self.area * self.shells

    def ratio(self, pairs: np.ndarray, *disks: np.ndarray) -> np.ndarray:
        """g(r), by how many disks were looked at and were inside in how many frames."""
        return pairs / self.pairs(*disks)


class Partial:
    """g(r) of each two sizes, if a scene has two or three; of more, or of one, there is none."""

    def __init__(self, scene: Scene, shape: tuple[int, int]):
        """With nothing counted: `shape` is of blocks and bins."""
        self.sizes, self.size = np.unique([row[4] / scene.sigma for row in scene.disks], return_inverse=True)
        count = len(self.sizes)
        self.both = [(a, b) for a in range(count) for b in range(a, count)] if 2 <= count <= 3 else []
        self.pairs = np.zeros((len(self.both), *shape))
        self.looked_at, self.inside = np.zeros((2, shape[0], count))

    def look_at(self, block: int, is_chosen: np.ndarray, is_inside: np.ndarray) -> None:
        self.looked_at[block] += np.bincount(self.size[is_chosen], minlength=len(self.sizes))
        self.inside[block] += np.bincount(self.size[is_inside], minlength=len(self.sizes))

    def add(self, block: int, first: np.ndarray, second: np.ndarray, distance: np.ndarray, edges: np.ndarray) -> None:
        """Pairs of a disk that is looked at and one near it."""
        low, high = np.sort([self.size[first], self.size[second]], axis=0)
        for place, (a, b) in enumerate(self.both):
            self.pairs[place, block] += np.histogram(distance[(low == a) & (high == b)], edges)[0]

    def columns(self, errors: Errors, ideal: Ideal, frames: np.ndarray, edges: np.ndarray) -> tuple[list[str], list]:
        """The columns and their names."""
        names, columns = [], []
        for pairs, (a, b) in zip(self.pairs, self.both):
            names += [f"g_{a}{b}", f"g_{a}{b}_error"]
            g, error = errors.of(partial(between, ideal, a, b), pairs, self.looked_at, self.inside, frames)
            columns += [g, np.where(edges[1:] <= self.touching(a, b), 0, error)]
        return names, columns

    def touching(self, a: int, b: int) -> float:
        """How far apart disks of two sizes are at least: g is 0 up to there, without an error."""
        return (self.sizes[a] + self.sizes[b]) / 2

    def of_shares(self, g: np.ndarray, parts: list[np.ndarray], composition: Composition, looked_at: float) -> list[np.ndarray]:
        """What the shares of sizes add to the errors of g and of its parts. Pairs follow the shares at the centres; and they are
        divided by densities inside, from which those at the centres differ."""
        inside, shares = composition.inside(), np.bincount(self.size) / len(self.size)
        density, part_of = composition.densities(), np.zeros((len(shares), len(shares), len(g)))
        for (a, b), part in zip(self.both, parts):
            part_of[a, b] = part_of[b, a] = np.nan_to_num(part)
        # By one disk more of each size, which may be either disk of a pair.
        pairs = 2 * np.einsum("abr,b->ra", part_of, shares)[:, self.size]
        found = [composition.drawn(pairs, inside) + composition.drawn(pairs + np.outer(g, density), looked_at, inside)]
        for (a, b), part in zip(self.both, parts):
            near = ((self.size == a) / shares[a] + (self.size == b) / shares[b]) / 2 + density
            found.append(composition.drawn(np.outer(part, near), looked_at, inside))
        return [np.sqrt(it) for it in found]

    def notes(self) -> list[str]:
        if not self.both:
            return []
        return ["sizes: " + ", ".join(f"{number} has {size:.6g} sigma" for number, size in enumerate(self.sizes))]


def between(ideal: Ideal, a: int, b: int, pairs: np.ndarray, looked_at: np.ndarray, inside: np.ndarray, frames: np.ndarray):
    """g(r) of two sizes. A pair of two sizes is looked at from either."""
    near = looked_at[a] * inside[b] + (looked_at[b] * inside[a] if a < b else 0)
    return pairs / ideal.pairs(near, 1.0, frames)


def contact_value(pairs: np.ndarray, ideal: np.ndarray, edges: np.ndarray) -> float:
    """g at contact: ln g just outside contact as a polynomial of the second degree, taken at the distance 1."""
    middle = (edges[:-1] + edges[1:]) / 2
    used = (middle > 1) & (middle < FIT) & (pairs > 0) & (ideal > 0)
    if used.sum() < 4:
        return np.nan
    fit = Polynomial.fit(middle[used], np.log(pairs[used] / ideal[used]), 2, w=np.sqrt(pairs[used]))
    return float(np.exp(fit(1.0)))


def at_contact(
    ideal: Ideal, pairs: np.ndarray, looked_at: np.ndarray, inside: np.ndarray, frames: np.ndarray, edges: np.ndarray
) -> np.ndarray:
    """g at contact, and the Z that it gives at the density inside."""
    g = contact_value(pairs, ideal.pairs(looked_at, inside, frames), edges)
    return np.array([g, 1 + np.pi / 2 * float((inside / frames).item()) / ideal.area * g])


def contact_notes(values: np.ndarray, errors: np.ndarray, phi: float) -> list[str | Stated]:
    """g at contact and the Z that it gives, with errors, and the reference's g if it is known at this density."""
    wanted = contact(REFERENCE(phi), phi) if phi > 0 else np.nan
    (g, factor), (g_error, factor_error) = values.tolist(), errors.tolist()
    return [
        Stated("at contact g", g, g_error, f", reference {wanted:.5g}" if np.isfinite(wanted) else ""),
        Stated(CONTACT_Z, factor, factor_error, f" at phi = {phi:.5g}"),
        *cautions(phi),
    ]


class StructureFactor(Measure):
    """S(k) up to `most` in bins of a width, both in 1 / σ, in the rectangle inside.

    Disks count by a window of Hann, so that the rectangle's edges don't show, at the wave vectors that fit it."""

    def __init__(self, sampling: Sampling, most: float = 15.0, width: float = 0.2):
        super().__init__(sampling)
        scene = self.scene
        self.sides = (np.array([scene.width, scene.height]) - 2 * sampling.margin) / scene.sigma
        # Half of the wave vectors: S(-k) is S(k).
        self.waves = Waves(*self.sides, *(most * self.sides / (2 * np.pi)).astype(int))
        i, j = self.waves.numbers()
        size = np.hypot(2 * np.pi * i[:, None] / self.sides[0], 2 * np.pi * j / self.sides[1])
        # The window itself has a part at the least wave vectors, where it would show the mean density.
        self.used = (size < most) & ((i > 1)[:, None] | (abs(j) > 1))
        self.edges, self.width = bin_edges(most, width), width
        self.bins = np.searchsorted(self.edges, size[self.used], "right") - 1
        self.sums, self.weights = np.zeros((2, sampling.blocks, len(self.edges)))
        self.frames = 0

    def add_state(self, frame: Frame) -> None:
        sampling, places = self.sampling, frame.rows[:, :2]
        block = sampling.block(frame.tick)
        places = (places[sampling.inside(places)] - sampling.margin) / self.scene.sigma
        window = np.prod(np.sin(np.pi * places / self.sides) ** 2, axis=1)
        power = np.abs(self.waves.sums(places, window)[self.used]) ** 2
        self.sums[block] += np.bincount(self.bins, power, self.sums.shape[1])
        self.weights[block] += np.bincount(self.bins, minlength=self.sums.shape[1]) * (window**2).sum()
        self.frames += 1

    def table(self) -> Table:
        s, errors = self.errors.ratio(self.sums, self.weights)
        middle = self.edges + self.width / 2
        known = self.weights.sum(axis=0) > 0
        notes = [f"{self.frames} frames; S(k) by a window of Hann over {self.sides[0]:.4g} times {self.sides[1]:.4g} sigma"]
        rows = list(zip(middle[known], s[known], errors[known]))
        return Table(["k", "S", "S_error"], rows, [*notes, *self.notes()])


class HexaticOrder(Measure):
    """The mean of |ψ6|, its size over all disks inside together, and the share of disks with six neighbours."""

    def __init__(self, sampling: Sampling, series: bool = False):
        super().__init__(sampling)
        self.has_series = series
        self.composition = Composition(sampling)
        self.squares = Squares(self.composition, 3)
        self.found: list[list[float]] = []
        self.ticks: list[int] = []

    def add_state(self, frame: Frame) -> None:
        inside = self.sampling.inside(frame.rows[:, :2])
        order, counts = order_of(frame.rows)
        self.composition.add(inside)
        if inside.any():
            order, has_six = order[inside], counts[inside] == 6
            self.found.append([np.abs(order).mean(), abs(order.mean()), has_six.mean()])
            if not self.scene.has_one_size:
                # What ψ6 of all is like doesn't follow from that of each.
                local = [np.abs(order), np.zeros(len(order)), has_six]
                self.squares.add(frame.rows[inside, :2], inside, np.column_stack(local))
            self.ticks.append(frame.tick)

    def table(self) -> Table:
        if not self.found:
            raise Refused("no disk is inside")
        sampling, names = self.sampling, ["local", "whole", "six_neighbours"]
        notes = [f"{len(self.found)} frames; local: the mean of |psi6|; whole: the size of the mean of psi6"]
        if self.has_series:
            times = [self.scene.reduced_time(tick) for tick in self.ticks]
            return Table(["time", *names], [[time, *row] for time, row in zip(times, self.found)], [*notes, *sampling.notes()])
        sums, frames = np.zeros((sampling.blocks, 3)), np.zeros((sampling.blocks, 1))
        blocks = sampling.block(np.array(self.ticks))
        np.add.at(sums, blocks, self.found)
        np.add.at(frames, blocks, 1)
        mean, errors = self.errors.ratio(sums, frames)
        errors = np.hypot(errors, self.squares.errors())
        columns = [name for it in names for name in (it, f"{it}_error")]
        of_sizes, shares = self.composition.columns()
        row = [*np.column_stack([mean, errors]).ravel().tolist(), *shares]
        return Table([*columns, *of_sizes], [row], [*notes, *self.composition.notes(self.squares.is_known), *self.notes()])

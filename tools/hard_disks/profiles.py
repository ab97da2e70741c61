"""What the walls do to a fluid: packing fraction, temperature and bond order by the distance from them, by states.

The density of disks that touch a wall, times the temperature, is the pressure there: a third way to it, which needs no
collisions."""
from dataclasses import dataclass

import numpy as np

from .bonds import order_of
from .errors import Errors
from .measuring import Measure
from .runs import Frame
from .sampling import Sampling, Stated, Table, bin_edges
from .scenes import Refused
from .structure import contact_value

# The gap between disks and walls is fitted up to this, in σ, in bins of this width.
GAP, GAP_WIDTH = 0.25, 0.02
# The deepest share of the strips is taken for what the bulk is. Another place differs from it if the mean of the strips over
# so many σ around it does, by more than a share and three errors of a strip: order makes strips beside each other alike.
DEEPEST, TOGETHER, NEAR_PHI, NEAR_PSI6 = 1 / 3, 4.0, 0.003, 0.01
# If three errors are so many times that share as a rule, nothing is seen.
ROUGH = 5


@dataclass(frozen=True)
class Strips:
    """Strips along the four walls, which leave out what is `corner` or less from another wall; lengths are in σ.

    A disk belongs to the wall that is nearest to it."""

    width: float
    height: float
    corner: float

    def depths(self, places: np.ndarray) -> tuple[np.ndarray, np.ndarray]:
        """How far each place is from the nearest wall, and whether it is in a strip."""
        nearest = np.minimum(places, [self.width, self.height] - places)
        return nearest.min(axis=1), nearest.max(axis=1) > self.corner

    def area_within(self, depth: np.ndarray) -> np.ndarray:
        """The area of the strips up to a depth."""
        depth = np.minimum(depth, min(self.width, self.height) / 2)
        # A strip ends at the corner or, deeper, at the diagonal, from which on the other wall is nearer.
        lost = np.where(depth < self.corner, self.corner * depth, (depth**2 + self.corner**2) / 2)
        return 2 * (self.width + self.height) * depth - 8 * lost

    def areas(self, edges: np.ndarray) -> np.ndarray:
        return np.diff(self.area_within(edges))

    def length(self) -> float:
        """How long they are together, along the walls."""
        return 2 * (self.width + self.height) - 8 * self.corner


class Profile(Measure):
    """φ, T and |ψ6| by the distance of disks' centres from the walls, up to `most` in strips of a width, both in σ."""

    def __init__(self, sampling: Sampling, most: float | None = None, width: float = 1.0):
        super().__init__(sampling)
        scene = self.scene
        box = np.array([scene.width, scene.height]) / scene.sigma
        most = box.min() / 2 if most is None else most
        if most > box.min() / 2:
            raise Refused(f"no disk is {most:g} sigma away from the walls: half of the box is {box.min() / 2:.4g}")
        self.strips = Strips(*box, sampling.margin / scene.sigma)
        self.edges, self.gaps, self.width = bin_edges(most, width), bin_edges(GAP, GAP_WIDTH), width
        self.sizes = np.array([row[4] for row in scene.disks]) / scene.sigma
        # Of the disks of each block and strip: how many they are, what they cover, their T, and their |ψ6|.
        self.sums = np.zeros((4, sampling.blocks, len(self.edges) - 1))
        self.touching = np.zeros((sampling.blocks, len(self.gaps) - 1))
        self.frames = np.zeros((sampling.blocks, 1))

    def add_state(self, frame: Frame) -> None:
        scene, places = self.scene, frame.rows[:, :2]
        block = self.sampling.block(frame.tick)
        depth, is_used = self.strips.depths(places / scene.sigma)
        squares = (frame.rows[:, 2:].astype(float) ** 2).sum(axis=1) / (2 * scene.speed**2)
        each = [np.ones(len(places)), np.pi / 4 * self.sizes**2, squares, np.abs(order_of(frame.rows)[0])]
        for total, values in zip(self.sums, each):
            total[block] += np.histogram(depth[is_used], self.edges, weights=values[is_used])[0]
        self.touching[block] += np.histogram((depth - self.sizes / 2)[is_used], self.gaps)[0]
        self.frames[block] += 1

    def table(self) -> Table:
        disks, covered, heat, order = self.sums
        areas, errors = self.frames * self.strips.areas(self.edges), self.errors
        columns = [errors.ratio(covered, areas), errors.ratio(heat, disks), errors.ratio(order, disks)]
        known = disks.sum(axis=0) > 0
        names = ["distance", "phi", "phi_error", "T", "T_error", "psi6", "psi6_error"]
        distances = self.edges[:-1] + self.width / 2
        rows = np.column_stack([distances, *(it for column in columns for it in column)])[known].tolist()
        notes = [
            f"{int(self.frames.sum())} frames; by the distance of disks' centres from the nearest wall, away from the corners",
            contact_note(errors, self.touching, self.frames * self.strips.length() * np.diff(self.gaps), self.gaps),
        ]
        return Table(names, rows, [*notes, *self.conclusions(Table(names, rows)), *self.notes()])

    def conclusions(self, table: Table) -> list[str]:
        distance, phi, phi_errors, _, _, psi6, psi6_errors = np.array(table.rows, float).T
        return level_notes(distance - self.width / 2, (phi, phi_errors, NEAR_PHI), (psi6, psi6_errors, NEAR_PSI6))


def contact_note(errors: Errors, touching: np.ndarray, ideal: np.ndarray, gaps: np.ndarray) -> Stated:
    """The density of disks that touch a wall, which is P / T; the fit begins at a gap of 0 as that of g does at 1."""
    found, error = map(float, errors.of(lambda *sums: contact_value(*sums, gaps + 1), touching, ideal))
    return Stated("at the walls rho", found, error, " per sigma^2, which is P / T")


def level_notes(depths: np.ndarray, *columns: tuple[np.ndarray, np.ndarray, float]) -> list[str]:
    """From which distance on all strips are as the deepest; each column has values, errors and how near is alike."""
    known = np.isfinite([errors for _, errors, _ in columns]).all(axis=0)
    if known.sum() < 3:
        return ["CAUTION: errors are unknown, and so is from where on phi and psi6 are level"]
    depths = depths[known]
    deepest = depths >= depths[-1] * (1 - DEEPEST)
    columns = [(values[known], errors[known], share) for values, errors, share in columns]
    if any(np.median(3 * errors / np.abs(values)) > ROUGH * share for values, errors, share in columns):
        return ["CAUTION: errors are too great to see from where on phi and psi6 are level: it takes a longer run"]
    level = max(level_from(depths, deepest, *column) for column in columns)
    if level >= depths[deepest][0]:
        return ["CAUTION: phi or psi6 hasn't levelled yet a third before the middle: it takes a larger box, or a longer run"]
    alike = f"{100 * NEAR_PHI:g} % and {100 * NEAR_PSI6:g} %, or three errors"
    return [f"phi and psi6 are level, to {alike}, from {level:.4g} sigma on: take a margin of that at least"]


def level_from(depths: np.ndarray, deepest: np.ndarray, values: np.ndarray, errors: np.ndarray, share: float) -> float:
    """The distance after the last strip that isn't as the deepest ones, by the mean around it."""
    weights = 1 / np.maximum(errors, 1e-9) ** 2
    bulk = (values * weights)[deepest].sum() / weights[deepest].sum()
    near = np.abs(depths[:, None] - depths) < TOGETHER / 2
    means, sure = near @ (values * weights) / (near @ weights), np.sqrt(near.sum(axis=1) / (near @ weights))
    far = np.abs(means - bulk) > np.maximum(share * abs(bulk), 3 * sure)
    last = np.flatnonzero(far & ~deepest)
    return float(depths[last[-1] + 1]) if len(last) else 0.0

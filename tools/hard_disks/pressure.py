"""The pressure of the fluid away from the walls, and how often its disks collide.

With N disks in the area A inside and their temperature T, half their mean squared speed, the virial over all collisions
of two disks inside in the time t gives

    Z = P A / (N T) = 1 + sum of r · Δv / (2 N T t)

where r is the place of the first disk less that of the second, and Δv the change of the first disk's velocity. The walls
say it a second time: P is what disks hand over to a wall by its length and the time, away from the corners. A collision
is inside where the middle between its two disks is.

All that is needed for it the program can sum up itself, in its format `sums`: see `part_sums`."""
import math
from dataclasses import dataclass
from functools import cached_property

import numpy as np

from .composition import Composition
from .measuring import Measure
from .motion import Followed
from .part_sums import Between
from .reports import PartSums
from .runs import Sample
from .sampling import Definition, Sampling, Table
from .theory import EQUATIONS, cautions, collision_rate, mixture

# At how many ticks the disks inside are counted, at least.
SAMPLES = 1_000
# By how much the mean area of disks inside may differ from that of all before a note says it.
OTHER_SIZES = 0.01


@dataclass
class Counts:
    """What is summed up in each block, or in some together: an array with a row for each. Places are in units, times in
    ticks."""

    virial: np.ndarray
    touching: np.ndarray  # the virial if each two disks touched
    collisions: np.ndarray
    wall: np.ndarray
    disks: np.ndarray
    covered: np.ndarray
    squared: np.ndarray
    samples: np.ndarray
    time: np.ndarray


class Colliding(Measure):
    """Adds up in each block what happens inside."""

    needs_collisions = True

    def __init__(self, sampling: Sampling, series: bool = False):
        super().__init__(sampling)
        self.has_series = series
        self.counted = Counts(*np.zeros((8, sampling.blocks)), np.full(sampling.blocks, sampling.block_time()))
        self.sums: list[PartSums] = []
        self.sizes = np.array([row[4] for row in sampling.scene.disks], float)
        self.composition = Composition(sampling)

    def sample_ticks(self) -> list[int]:
        samples = math.ceil(SAMPLES / self.sampling.blocks) * self.sampling.blocks
        ticks = np.linspace(self.sampling.start, self.scene.end, 2 * samples + 1)[1::2]
        return ticks.astype(np.int64).tolist()

    def add_sums(self, sums: PartSums) -> None:
        if sums.tick >= self.sampling.start:
            self.sums.append(sums)

    @cached_property
    def between(self) -> Between | None:
        """What the program summed up; none if it wrote collisions."""
        return Between(self.sums, self.sampling) if self.sums else None

    @cached_property
    def counts(self) -> Counts:
        """What happened inside in each block, once all is known."""
        return Counts(**self.between.columns()) if self.between else self.counted

    def block_times(self) -> list[float]:
        """The middle of each block, in σ / v."""
        sampling = self.sampling
        ticks = sampling.start + (np.arange(sampling.blocks) + 0.5) * sampling.block_time()
        return [sampling.scene.reduced_time(tick) for tick in (self.between.middles() if self.between else ticks)]

    def notes(self) -> list[str]:
        return [*(self.between.notes() if self.between else []), *super().notes()]

    def add_sample(self, sample: Sample) -> None:
        """Counts the disks inside, and their squared speeds.

        A part of the fluid may be denser and cooler than the rest for long, at the same pressure; its own temperature
        counts."""
        counts, inside = self.counted, self.sampling.inside(sample.rows[:, :2])
        block = self.sampling.block(sample.tick)
        self.composition.add(inside)
        counts.samples[block] += 1
        counts.disks[block] += inside.sum()
        counts.covered[block] += math.pi / 4 * (self.sizes[inside] ** 2).sum()
        counts.squared[block] += (sample.rows[inside, 2:].astype(float) ** 2).sum()

    def add_collisions(self, found: Followed) -> None:
        self.add_pairs(found)
        self.add_walls(found)

    def estimate(self) -> tuple[np.ndarray, ...]:
        """The four values of the whole time, their errors, and what these were if the packing fraction were known."""
        # The pressure at the walls is that inside, so in the long run both Z have one slope.
        values, errors, known = self.errors.by_density(self.values_of, *vars(self.counts).values(), follow=[0, 1, 1, 3])
        if self.between and not self.scene.has_one_size:
            # Sums don't tell which sizes are inside, so nothing is known of what follows the packing fraction.
            known = np.full(len(known), np.nan)
        return values, np.hypot(errors, self.composition.errors()), known

    def composition_notes(self) -> list[str]:
        """That other disks are inside than in the scene, if their mean area differs: walls and chance sort sizes. And that it
        stays so."""
        presence, squares, notes = self.composition.presence, self.sizes**2, self.composition.notes()
        if self.scene.has_one_size or not presence.any():
            return notes
        more = (presence @ squares) / presence.sum() / squares.mean() - 1
        if abs(more) < OTHER_SIZES:
            return notes
        said = f"CAUTION: the mean area of disks inside is {abs(more):.1%} {'more' if more > 0 else 'less'} than that of all"
        return [said, *notes]

    def values_of(self, *sums: np.ndarray) -> np.ndarray:
        return values(Counts(*sums), self.sampling)

    def pressure_of(self, *sums: np.ndarray) -> np.ndarray:
        """P σ² / v²: not by the temperature inside, so it doesn't follow the heat, but is the same all over the box."""
        counts, scene = Counts(*sums), self.scene
        with np.errstate(invalid="ignore", divide="ignore"):
            moving = counts.squared / 2 / counts.samples + counts.virial / 2 / counts.time
        return moving / self.sampling.area() * (scene.sigma / scene.speed) ** 2

    def add_pairs(self, found: Followed) -> None:
        """The virial of collisions of two disks."""
        counts, sampling = self.counted, self.sampling
        counted = found.is_pair & (found.tick >= sampling.start)
        counted &= sampling.inside((found.place_first + found.place_second) / 2)
        apart = (found.place_first - found.place_second)[counted].astype(float)
        push = (found.after_first - found.before_first)[counted]
        touching = (self.sizes[found.first[counted]] + self.sizes[found.second[counted]]) / 2
        blocks = sampling.block(found.tick[counted])
        counts.virial += np.bincount(blocks, (apart * push).sum(axis=1), sampling.blocks)
        counts.touching += np.bincount(blocks, touching * np.hypot(*push.T), sampling.blocks)
        counts.collisions += np.bincount(blocks, minlength=sampling.blocks)

    def add_walls(self, found: Followed) -> None:
        """What disks hand over to the walls, away from corners."""
        scene, sampling = self.scene, self.sampling
        across = np.where(found.side < 2, 0, 1)
        rows = np.arange(len(across))
        along, length = found.place_first[rows, 1 - across], np.array([scene.height, scene.width])[across]
        counted = ~found.is_pair & (found.tick >= sampling.start)
        counted &= (along >= sampling.margin) & (along <= length - sampling.margin)
        push = 2.0 * np.abs(found.before_first[rows, across][counted])
        self.counted.wall += np.bincount(sampling.block(found.tick[counted]), push, sampling.blocks)


def values(counts: Counts, sampling: Sampling) -> np.ndarray:
    """For each row the packing fraction, Z by the virial, Z by the walls, and how often a disk collides in σ / v."""
    scene, ticks = sampling.scene, counts.time
    wall_length = 2 * (scene.width + scene.height) - 8 * sampling.margin
    with np.errstate(invalid="ignore", divide="ignore"):
        disks, temperature = counts.disks / counts.samples, counts.squared / counts.disks / 2
        factor = 1 + counts.virial / (2 * disks * temperature * ticks)
        wall = counts.wall / (wall_length * ticks) / (disks / sampling.area() * temperature)
        rate = 2 * counts.collisions / disks / ticks * scene.sigma / np.sqrt(temperature)
        covered = counts.covered / counts.samples / sampling.area()
    return np.array([covered, factor, wall, rate])


class Pressure(Colliding):
    """Z by the virial and by the walls, beside equations of state where they hold."""

    def table(self) -> Table:
        counts, sampling, scene = self.counts, self.sampling, self.scene
        if self.has_series:
            columns = values(counts, sampling)[:3]
            return Table(["time", "phi", "Z", "Z_wall"], list(zip(self.block_times(), *columns)), sampling.notes())
        (phi, factor, wall, _), errors, at_phi = self.estimate()
        uniform = self.errors.of(self.pressure_of, *vars(counts).values(), follows_heat=False)
        row = [phi, errors[0], int(counts.collisions.sum()), factor, errors[1], at_phi[1], wall, errors[2], *map(float, uniform)]
        names = ["phi", "phi_error", "collisions", "Z", "Z_error", "Z_error_given_phi", "Z_wall", "Z_wall_error", "P", "P_error"]
        if scene.has_one_size:
            names, row = [*names, *(f"Z_{it.name}" for it in EQUATIONS)], [*row, *(it(phi) for it in EQUATIONS)]
        else:
            presence = self.composition.presence
            names, row = [*names, "Z_mixture"], [*row, mixture(phi, self.sizes, presence if presence.any() else None)]
        of_sizes, shares = self.composition.columns()
        names, row = [*names, *of_sizes], [*row, *shares]
        notes = [
            Definition("Z = P A / (N T): by the virial of collisions inside, and by the walls away from corners; phi is that inside"),
            Definition("Z_error is that of the mean Z; beside an equation of state at the phi of this row Z_error_given_phi counts"),
            Definition("P is in v^2 / sigma^2, with disks of mass 1: by the virial inside, and the same all over the box"),
        ]
        early = counts.virial.sum() / counts.touching.sum() - 1 if counts.collisions.any() else 0
        notes.append(
            f"collisions come early, as if disks were larger by {early:.2g} of their diameter, so Z is of disks that large"
        )
        return Table(names, [row], [*notes, *cautions(phi), *self.composition_notes(), *self.notes()])


class Rate(Colliding):
    """How often a disk collides, and how far it goes between, beside Enskog's rate where disks have one size."""

    def table(self) -> Table:
        counts, sampling = self.counts, self.sampling
        if self.has_series:
            columns = values(counts, sampling)[[0, 3]]
            return Table(["time", "phi", "rate"], list(zip(self.block_times(), *columns)), sampling.notes())
        (phi, _, _, found), errors, _ = self.estimate()
        path = math.sqrt(math.pi / 2) / found if found else math.inf
        row = [phi, int(counts.collisions.sum()), found, errors[3], path, path * errors[3] / found if found else math.nan]
        names = ["phi", "collisions", "rate", "rate_error", "free_path", "free_path_error"]
        if self.scene.has_one_size:
            names, row = [*names, "rate_Enskog"], [*row, collision_rate(phi) if phi > 0 else math.nan]
        of_sizes, shares = self.composition.columns()
        names, row = [*names, *of_sizes], [*row, *shares]
        notes = ["collisions of a disk in the time sigma/v; free_path is the mean speed divided by that, in sigma"]
        return Table(names, [row], [*notes, *cautions(phi), *self.composition_notes(), *self.notes()])

"""Between two collisions: how long disks fly and how far, how they meet, and how often by their speed.

A free flight counts if both its collisions, of two disks each, are inside. Sides turn a velocity without changing its size,
so the path is the speed times the time."""
import math

import numpy as np

from .measuring import Measure
from .motion import Followed
from .pressure import SAMPLES
from .runs import Sample
from .sampling import Sampling, Stated, Table, bin_edges
from .theory import collision_rate, rate_by_speed

# Where no flight begins: before the first collision of a disk, and after one that isn't inside.
NEVER = -1


class Paths(Measure):
    """Densities over x in bins of a width: of free times and free paths by their means in Enskog's theory, and of the impact
    parameter by the distance of the centres; and how often a disk of the speed x collides."""

    needs_collisions = True

    def __init__(self, sampling: Sampling, most: float = 5.0, width: float = 0.1):
        super().__init__(sampling)
        scene = self.scene
        self.edges, self.width = bin_edges(most, width), width
        self.rate = collision_rate(scene.phi) if math.isfinite(collision_rate(scene.phi)) else 1.0
        bins = len(self.edges) - 1
        # Of each block and bin: free times, free paths, impact parameters, collisions by speed, and looks at such a speed.
        self.times, self.ways, self.impacts, self.hits, self.looks = np.zeros((5, sampling.blocks, bins))
        self.flights, self.pairs = np.zeros((2, sampling.blocks, 1))
        # Of each block the free times and paths in all.
        self.lasted, self.gone = np.zeros((2, sampling.blocks))
        self.inside = 0
        self.since = np.full(len(scene.disks), NEVER, np.int64)

    def sample_ticks(self) -> list[int]:
        return np.linspace(self.sampling.start, self.scene.end, SAMPLES, endpoint=False).astype(np.int64).tolist()

    def add_sample(self, sample: Sample) -> None:
        inside = self.sampling.inside(sample.rows[:, :2])
        self.inside += inside.sum()
        speeds = np.hypot(*sample.rows[inside, 2:].T) / self.scene.speed
        self.looks[self.sampling.block(sample.tick)] += np.histogram(speeds, self.edges)[0]

    def add_collisions(self, found: Followed) -> None:
        pair = found.is_pair
        tick, centres = found.tick[pair], (found.place_first + found.place_second)[pair] / 2
        is_counted = self.sampling.inside(centres) & (tick >= self.sampling.start)
        first, second = found.before_first[pair], found.before_second[pair]
        apart = (found.place_first - found.place_second)[pair].astype(float)
        self.add_impacts(tick[is_counted], apart[is_counted], (first - second)[is_counted].astype(float))
        # Both disks of each, in the order of collisions.
        disks = np.column_stack([found.first[pair], found.second[pair]]).ravel()
        speeds = np.hypot(*np.stack([first, second], axis=1).reshape(-1, 2).T.astype(float))
        self.add_flights(disks, np.repeat(tick, 2), speeds, np.repeat(is_counted, 2))

    def add_impacts(self, tick: np.ndarray, apart: np.ndarray, relative: np.ndarray) -> None:
        """How far disks would pass each other, by how far their centres are apart."""
        cross = np.abs(apart[:, 0] * relative[:, 1] - apart[:, 1] * relative[:, 0])
        with np.errstate(invalid="ignore", divide="ignore"):
            self.add(self.impacts, tick, cross / np.hypot(*apart.T) / np.hypot(*relative.T))
        np.add.at(self.pairs[:, 0], self.sampling.block(tick), 1)

    def add_flights(self, disks: np.ndarray, tick: np.ndarray, speeds: np.ndarray, is_counted: np.ndarray) -> None:
        scene = self.scene
        self.add(self.hits, tick[is_counted], speeds[is_counted] / scene.speed)
        order = np.argsort(disks, kind="stable")
        disks, tick, speeds, is_counted = disks[order], tick[order], speeds[order], is_counted[order]
        ends = np.where(is_counted, tick, NEVER)
        begins = np.append(True, disks[1:] != disks[:-1]) if len(disks) else np.zeros(0, bool)
        since = np.where(begins, self.since[disks], np.roll(ends, 1))
        is_last = np.roll(begins, -1)
        self.since[disks[is_last]] = ends[is_last]
        known = is_counted & (since != NEVER)
        tick, lasted = tick[known], (tick - since)[known]
        gone = lasted * speeds[known] / scene.sigma
        lasted = lasted / scene.time
        self.add(self.times, tick, lasted * self.rate)
        self.add(self.ways, tick, gone * self.rate / math.sqrt(math.pi / 2))
        blocks = self.sampling.block(tick)
        np.add.at(self.flights[:, 0], blocks, 1)
        np.add.at(self.lasted, blocks, lasted)
        np.add.at(self.gone, blocks, gone)

    def add(self, counts: np.ndarray, tick: np.ndarray, values: np.ndarray) -> None:
        """Counts values by block and bin; greater ones than the last bin's are left out."""
        bins = (values / self.width).astype(np.int64) if len(values) else np.zeros(0, np.int64)
        used = bins < counts.shape[1]
        np.add.at(counts, (self.sampling.block(tick[used]), bins[used]), 1)

    def table(self) -> Table:
        of, middles = self.errors.of, self.edges[:-1] + self.width / 2
        columns = [
            *of(np.divide, self.times, self.flights * self.width), *of(np.divide, self.ways, self.flights * self.width),
            *of(np.divide, self.impacts, self.pairs * self.width), *of(np.divide, self.hits, self.looks * self.time_of_look()),
        ]
        names = ["time_density", "path_density", "impact_density", "speed_rate"]
        names = ["x", *(it for name in names for it in (name, f"{name}_error")), "speed_rate_Enskog"]
        rows = list(zip(middles, *columns, rate_by_speed(self.phi(), middles)))
        flights = self.flights[:, 0]
        notes = [
            f"x: free times by {1 / self.rate:.4g} sigma/v and free paths by {math.sqrt(math.pi / 2) / self.rate:.4g} sigma,"
            " their means by Enskog at the phi of the whole box; impact parameters by the distance of the centres; speeds by v",
            f"speed_rate: collisions in sigma/v of a disk of this speed; by Enskog at phi = {self.phi():.4g}, that inside",
            Stated("mean free time", *map(float, of(np.divide, self.lasted, flights)), " sigma/v"),
            Stated("mean free path", *map(float, of(np.divide, self.gone, flights)), " sigma"),
        ]
        return Table(names, rows, [*notes, *self.notes()])

    def phi(self) -> float:
        """The mean packing fraction inside."""
        covered = np.mean([row[4] ** 2 for row in self.scene.disks]) * math.pi / 4
        return float(self.inside / SAMPLES * covered / self.sampling.area())

    def time_of_look(self) -> float:
        """For how long in σ / v a look stands."""
        return (self.scene.end - self.sampling.start) / SAMPLES / self.scene.time

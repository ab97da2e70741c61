"""How disks move: mean squared displacement, velocity correlation and the distribution of speeds, by frames."""
from functools import cached_property
from typing import Iterable

import numpy as np

from .measuring import Measure
from .runs import Frame
from .sampling import Sampling, Stated, Table, bin_edges, rough
from .scenes import Refused
from .theory import diffusion as enskog_diffusion
from .theory import velocity_tail
from .vortices import Vortices

# Below so many times Enskog's time C(t) is still well above 0, and D well below what it comes to.
LEAST_TIMES = 5
# How far two states are apart at most, in σ / v, unless a quarter of the measure is less: then few pairs of states are left.
MOST = 10.0


class Earlier:
    """The last few states, and which disks were inside at each, so that a new state is compared with all of them at once.

    Places are those since the first state: so differences of them lose no digits, however far from 0 the box is."""

    def __init__(self, count: int, places: np.ndarray):
        self.origin, self.added = places, 0
        # A row for each state; of a disk that isn't inside at it there are zeros.
        self.inside = np.zeros((count, len(places)))
        self.places, self.velocities = np.zeros((2, count, places.size))
        self.blocks = np.zeros(count, int)
        # How many disks are inside at each state, and the sums of r · r and of v · r over them.
        self.counts, self.squares, self.products = np.zeros((3, count))

    def add(self, block: int, rows: np.ndarray, inside: np.ndarray) -> None:
        place, both = self.added % len(self.blocks), np.repeat(inside, 2)
        # As floats: the sum of squares of whole numbers might be too great for these.
        moved, velocities = ((it.ravel() * both).astype(float) for it in (rows[:, :2] - self.origin, rows[:, 2:]))
        self.blocks[place], self.inside[place], self.places[place], self.velocities[place] = block, inside, moved, velocities
        self.counts[place], self.squares[place], self.products[place] = inside.sum(), moved @ moved, velocities @ moved
        self.added += 1

    def newest_first(self) -> np.ndarray:
        """Which rows the states have, from the last one back."""
        count = len(self.blocks)
        return (self.added - 1 - np.arange(min(self.added, count))) % count

    def squared_ways(self, rows: np.ndarray) -> np.ndarray:
        """Of each state the sum of squared ways from it to a state with these rows, over the disks inside at it."""
        moved = (rows[:, :2] - self.origin).astype(float)
        return self.squares - 2 * (self.places @ moved.ravel()) + self.inside @ (moved**2).sum(axis=1)

    def velocity_products(self, rows: np.ndarray) -> np.ndarray:
        """The same of the products of both velocities."""
        return self.velocities @ rows[:, 2:].ravel().astype(float)

    def velocities_by_ways(self, rows: np.ndarray) -> np.ndarray:
        """The same of the products of the earlier velocity and the way."""
        return self.velocities @ (rows[:, :2] - self.origin).ravel().astype(float) - self.products


class Lagged(Measure):
    """Adds up, by lag and the block of the earlier state, what it finds of each two states up to `most` σ / v apart, of the
    disks that are inside at the earlier one. The first lag is 0: a state beside itself."""

    # How many numbers it finds of two states.
    width: int

    def __init__(self, sampling: Sampling, most: float | None = None):
        super().__init__(sampling)
        every = self.scene.every
        most = min(MOST, self.errors.time / 4) if most is None else most
        if every is None:
            raise Refused("the scene has no every, so its report has no states to compare")
        # The every is a whole number of ticks: so a time is the nearest lag, that runs of other seeds have too.
        self.steps = max(round(self.scene.ticks(most) / every), 1)
        self.earlier: Earlier | None = None
        self.sums = np.zeros((self.width, sampling.blocks, self.steps + 1))
        self.weights = np.zeros((sampling.blocks, self.steps + 1))

    def found(self, earlier: Earlier, rows: np.ndarray) -> tuple[np.ndarray, ...]:
        """Sums over disks, of each earlier state and that with these rows."""
        raise NotImplementedError

    def add_state(self, frame: Frame) -> None:
        if frame.tick % self.scene.every:
            return
        if self.earlier is None:
            self.earlier = Earlier(self.steps + 1, frame.rows[:, :2])
        earlier = self.earlier
        earlier.add(self.sampling.block(frame.tick), frame.rows, self.sampling.inside(frame.rows[:, :2]))
        states = earlier.newest_first()
        place = earlier.blocks[states], np.arange(len(states))
        self.weights[place] += earlier.counts[states]
        for sums, found in zip(self.sums, self.found(earlier, frame.rows)):
            sums[place] += found[states]

    def known(self) -> tuple[np.ndarray, np.ndarray, np.ndarray]:
        """The times that any two states are apart, and of these the sums and the numbers of disks, by block."""
        known = self.weights.any(axis=0)
        if known.sum() < 2:
            raise Refused("no two states of the measure have a disk inside: it needs a finer every, or a longer run")
        times = np.array([self.scene.reduced_time(lag * self.scene.every) for lag in np.flatnonzero(known)])
        return times, self.sums[:, :, known], self.weights[:, known]

    def phi(self) -> float:
        """The mean packing fraction inside, if disks have one size."""
        disks = self.weights[:, 0].sum() / self.earlier.added
        return float(disks * np.pi / 4 * self.scene.sigma**2 / self.sampling.area())

    def means(self, times: np.ndarray, sums: np.ndarray, weights: np.ndarray) -> tuple[np.ndarray, np.ndarray]:
        """The means by lag, and their errors: each lag has blocks of its own."""
        found = [self.errors.ratio(sums[:, lag], weights[:, lag], time) for lag, time in enumerate(times)]
        return np.array(found).T

    @cached_property
    def vortices(self) -> Vortices:
        return Vortices(self.sampling, self.errors.heat.fluid.phi)

    def unseen(self, moved: Iterable[np.ndarray], times: np.ndarray) -> np.ndarray:
        """What vortices add to the errors of means by lag, which they move by so much, as they are slow beside the measure."""
        errors, found = self.errors, zip(moved, times)
        errors.parts = [f"errors have a part of vortices too, the slowest of which falls in {1 / self.vortices.rates.min():.3g} sigma/v"]
        return np.array([self.vortices.unseen(each, errors.time - lag, errors.counted(lag)) for each, lag in found])


class Displacement(Lagged):
    """The mean squared displacement in σ², and D by its slope over the second half of the times up to `most` σ / v."""

    width = 1

    def found(self, earlier: Earlier, rows: np.ndarray) -> tuple[np.ndarray, ...]:
        return (earlier.squared_ways(rows),)

    def table(self) -> Table:
        times, (squares,), weights = self.known()
        times, squares, weights = times[1:], squares[:, 1:] / self.scene.sigma**2, weights[:, 1:]
        mean, errors = self.means(times, squares, weights)
        diffusion, error = self.errors.of(lambda *sums: slope(times, np.divide(*sums)) / 4, squares, weights, lag=times[-1])
        moved = self.vortices.ways(times)
        by_slope = np.tensordot(slope(times, np.eye(len(times))) / 4, moved, 1)
        errors = np.hypot(errors, self.unseen(moved, times))
        (error,) = np.hypot(error, self.unseen([by_slope], times[-1:]))
        notes = [Stated("D", float(diffusion), float(error), " sigma v, by the slope over the second half")]
        phi = self.phi()
        notes += cautions(self.sampling, phi, times, mean)
        columns = [mean, errors, *([4 * enskog_diffusion(phi) * times] if self.scene.has_one_size else [])]
        names = ["time", "msd", "msd_error", "msd_Enskog"][: len(columns) + 1]
        return Table(names, list(zip(times, *columns)), [*notes, *self.notes()])


def cautions(sampling: Sampling, phi: float, times: np.ndarray, squares: np.ndarray) -> list[str]:
    """Enskog's D where disks have one size, at the packing fraction inside, and what makes D too small beyond its error:
    walls, or too short a time.

    Walls show once disks go half the margin along an axis, by the root mean square: then the squares are about a percent
    too small, in the least of boxes."""
    notes = []
    if sampling.scene.has_one_size:
        wanted = enskog_diffusion(phi)
        known = f"{wanted:.4g} sigma v" if wanted == wanted else "unknown"
        notes.append(f"Enskog D = {known} at phi = {phi:.4g}, that inside")
        if times[-1] < LEAST_TIMES * wanted:
            notes.append(f"CAUTION: D is too small, as the times are too short: take --most {rough(LEAST_TIMES * wanted)} or more")
    is_held = 2 * squares * sampling.scene.sigma**2 > sampling.margin**2
    if is_held.any():
        notes.append(
            f"CAUTION: from {times[is_held][0]:.4g} sigma/v on disks meet walls, so D is too small: take a greater --margin,"
            " a larger box, or a smaller --most"
        )
    return notes


def slope(times: np.ndarray, values: np.ndarray) -> float:
    """The slope of the straight line through the second half of the times; none where a value is missing."""
    used = slice(len(times) // 2, None) if len(times) > 3 else slice(None)
    if len(times) < 2 or not np.isfinite(values[used]).all():
        return np.nan
    return np.polyfit(times[used], values[used], 1)[0]


class VelocityCorrelation(Lagged):
    """C(t) = ⟨v(0) · v(t)⟩ / ⟨v²⟩, and D(t), its integral from 0 to t in σ v.

    The integral of v(0) · v(t) is v(0) · (r(t) - r(0)), so it is exact however far apart the states are."""

    width = 3

    def found(self, earlier: Earlier, rows: np.ndarray) -> tuple[np.ndarray, ...]:
        return earlier.velocity_products(rows), earlier.velocities_by_ways(rows), earlier.squared_ways(rows)

    def table(self) -> Table:
        times, (products, integrals, squares), weights = self.known()
        scene = self.scene
        correlation, errors = self.means(times, products / (2 * scene.speed**2), weights)
        diffusion, diffusion_errors = self.means(times, integrals / (2 * scene.speed * scene.sigma), weights)
        diffusion_errors = np.hypot(diffusion_errors, self.unseen(self.vortices.integrals(times), times))
        # At the time 0 nothing has moved.
        diffusion_errors[times == 0] = 0
        notes = [Stated("D", diffusion[-1], diffusion_errors[-1], f" sigma v, by the integral up to {times[-1]:.4g} sigma/v")]
        phi = self.phi()
        notes += cautions(self.sampling, phi, times, squares.sum(axis=0) / weights.sum(axis=0) / scene.sigma**2)
        columns = [correlation, errors, diffusion, diffusion_errors]
        if scene.has_one_size:
            columns += [velocity_tail(phi, times), np.full(len(times), enskog_diffusion(phi))]
        names = ["time", "C", "C_error", "D", "D_error", "C_tail", "D_Enskog"][: len(columns) + 1]
        return Table(names, list(zip(times, *columns)), [*notes, *self.notes()])


def boltzmann(speeds: np.ndarray, edges: np.ndarray) -> float:
    """Boltzmann's H = ∫ f ln f over velocities, with f the same all over the ring of velocities of a bin of speeds."""
    counts, rings = np.histogram(speeds, edges)[0], np.pi * np.diff(edges**2)
    shares = counts[counts > 0] / len(speeds)
    return float((shares * np.log(shares / rings[counts > 0])).sum())


class Speeds(Measure):
    """The distribution of speeds up to `most` in bins of a width, both in v, beside Maxwell's; or of each state its mean
    squares."""

    def __init__(self, sampling: Sampling, most: float = 5.0, width: float = 0.1, series: bool = False):
        super().__init__(sampling)
        self.edges, self.width, self.has_series = bin_edges(most, width), width, series
        self.counts = np.zeros((sampling.blocks, len(self.edges) - 1))
        self.disks, self.moments = np.zeros((sampling.blocks, 1)), np.zeros((2, sampling.blocks))
        self.rows: list[tuple[float, ...]] = []

    def add_state(self, frame: Frame) -> None:
        block = self.sampling.block(frame.tick)
        squares = (frame.rows[:, 2:].astype(float) ** 2).sum(axis=1) / self.scene.speed**2
        self.counts[block] += np.histogram(np.sqrt(squares), self.edges)[0]
        self.disks[block] += len(squares)
        self.moments[:, block] += squares.sum(), (squares**2).sum()
        if self.has_series:
            second, fourth = squares.mean(), (squares**2).mean()
            time = self.scene.reduced_time(frame.tick)
            self.rows.append((time, second / 2, fourth / second**2, boltzmann(np.sqrt(squares), self.edges)))

    def table(self) -> Table:
        if self.has_series:
            notes = [
                "T: half the mean of v^2; shape: <v^4> / <v^2>^2, Maxwell 2; H: Boltzmann's, by bins of speeds, Maxwell"
                f" {-1 - np.log(2 * np.pi):.4f}; all disks, near walls too"
            ]
            return Table(["time", "T", "shape", "H"], self.rows, [*notes, *self.sampling.notes()])
        density, errors = self.errors.of(np.divide, self.counts, self.disks * self.width, follows_heat=False)
        maxwell = -np.diff(np.exp(-(self.edges**2) / 2)) / self.width
        moments = self.disks[:, 0], *self.moments
        shape = self.errors.of(lambda disks, second, fourth: disks * fourth / second**2, *moments, follows_heat=False)
        notes = [Stated("<v^4> / <v^2>^2", *map(float, shape), ", Maxwell 2; all disks, near walls too")]
        rows = list(zip(self.edges[:-1] + self.width / 2, density, errors, maxwell))
        return Table(["speed", "density", "density_error", "Maxwell"], rows, [*notes, *self.notes()])

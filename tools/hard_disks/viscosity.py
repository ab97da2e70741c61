"""The shear viscosity by Helfand's sum: how fast the shear stress of the whole box, summed up over time, wanders.

The stress along x less that along y is a shear stress, of axes turned by 45 degrees. It is taken because walls that only
turn velocities round are mirrors: to the whole box with its images it is uniform, so no momentum flows away from it, as it
does from the stress of x by y at walls. With G its sum over time, disks of the mass 1 and the temperature T

    η = ⟨(G(t) - G(0))²⟩ / (2 A T t),   G(t) = 1/2 ∫ Σ (vx² - vy²) dt + 1/2 Σ over collisions (x Δvx - y Δvy)

where x and y are from the second disk to the first, and Δv the change of the first one's velocity."""
import numpy as np

from .measuring import Measure
from .motion import Followed
from .pressure import SAMPLES
from .sampling import Sampling, Stated, Table
from .scenes import Refused
from .theory import viscosity

# Into how many steps the longest time is cut.
STEPS = 40


class Stress:
    """Sums up the shear stress over time, exactly between collisions too, and says the sum at ticks that are evenly spaced."""

    def __init__(self, rows: np.ndarray, step: float):
        """From the tick 0 on, at which all disks are as in these rows."""
        self.step, self.said = step, 0
        # The sum up to the last collision, and how fast it goes on.
        self.tick, self.total, self.rate = 0.0, 0.0, float(kinetic(rows[:, 2:]).sum())

    def add(self, found: Followed) -> np.ndarray:
        """The sums at the steps up to the last of these collisions, from the last step that was said on."""
        pair = found.is_pair
        push = (found.after_first - found.before_first).astype(float)
        apart = (found.place_first - found.place_second).astype(float)
        change = kinetic(found.after_first) - kinetic(found.before_first)
        change += np.where(pair, kinetic(found.before_second - push) - kinetic(found.before_second), 0)
        given = np.where(pair, (apart * push) @ [0.5, -0.5], 0)
        rates = self.rate + np.cumsum(change)
        ticks = np.append(self.tick, found.tick)
        before = np.append(self.rate, rates[:-1])
        totals = np.append(self.total, self.total + np.cumsum(before * np.diff(ticks) + given))
        self.tick, self.total, self.rate = float(ticks[-1]), totals[-1], rates[-1]
        return self.at_steps(ticks, totals, np.append(before[:1], rates))

    def at_steps(self, ticks: np.ndarray, totals: np.ndarray, rates: np.ndarray) -> np.ndarray:
        last = int(ticks[-1] / self.step)
        steps = np.arange(self.said, last) + 1
        self.said = max(last, self.said)
        place = np.searchsorted(ticks, steps * self.step, "right") - 1
        return totals[place] + rates[place] * (steps * self.step - ticks[place])


def kinetic(velocities: np.ndarray) -> np.ndarray:
    """The part of the stress that disks carry along."""
    return velocities.astype(float) ** 2 @ [0.5, -0.5]


class Viscosity(Measure):
    """η(t) up to `most` σ / v, from the start of the measure on."""

    needs_collisions = True

    def __init__(self, sampling: Sampling, most: float = 2.0):
        super().__init__(sampling)
        scene = self.scene
        if most > self.errors.time:
            raise Refused(f"the measure is {self.errors.time:.4g} sigma/v long, too little for times up to {most:g}")
        self.step = most * scene.time / STEPS
        self.stress = Stress(np.array([row[:4] for row in scene.disks], np.int64).reshape(-1, 4), self.step)
        # The last sums of the stress, and the ticks at which they were.
        self.totals, self.ticks = np.zeros((2, 0))
        # Of each block of the earlier tick and each lag: how many were compared, by how much they differ, and its square.
        self.counted, self.first, self.second = np.zeros((3, sampling.blocks, STEPS))

    def sample_ticks(self) -> list[int]:
        return np.linspace(self.sampling.start, self.scene.end, SAMPLES, endpoint=False).astype(np.int64).tolist()

    def add_collisions(self, found: Followed) -> None:
        said = self.stress.said
        totals = self.stress.add(found)
        ticks = (said + 1 + np.arange(len(totals))) * self.step
        used = ticks >= self.sampling.start
        known = len(self.totals)
        self.totals, self.ticks = np.append(self.totals, totals[used]), np.append(self.ticks, ticks[used])
        self.compare(np.arange(known, len(self.totals))[:, None])
        self.totals, self.ticks = self.totals[-STEPS:], self.ticks[-STEPS:]

    def compare(self, later: np.ndarray) -> None:
        """Each of these sums with those before it."""
        lags = np.arange(1, STEPS + 1)
        is_known = later - lags >= 0
        earlier, lags = (later - lags)[is_known], np.broadcast_to(lags, is_known.shape)[is_known]
        ways = self.totals[earlier + lags] - self.totals[earlier]
        place = self.sampling.block(self.ticks[earlier].astype(np.int64)) * STEPS + lags - 1
        for sums, values in ((self.counted, np.ones(len(ways))), (self.first, ways), (self.second, ways**2)):
            sums += np.bincount(place, values, sums.size).reshape(sums.shape)

    def table(self) -> Table:
        scene = self.scene
        times = np.arange(1, STEPS + 1) * self.step / scene.time
        area = scene.width * scene.height / scene.sigma**2
        found = [
            self.errors.of(wandering, *(it[:, lag] for it in (self.counted, self.first, self.second)), lag=time, follows_heat=False)
            for lag, time in enumerate(times)
        ]
        values, errors = np.array(found, float).T / (2 * area * times * (scene.sigma * scene.speed) ** 2)
        phi = self.errors.heat.fluid.phi
        notes = [
            "viscosity: the shear viscosity in v / sigma of disks of the mass 1, by Helfand's sum over the whole box",
            f"by Enskog at phi = {phi:.4g}, that inside",
            Stated("eta", values[-1], errors[-1], f" v/sigma, by {times[-1]:.4g} sigma/v"),
        ]
        columns = [values, errors, *([np.full(STEPS, viscosity(phi))] if scene.has_one_size else [])]
        names = ["time", "viscosity", "viscosity_error", "viscosity_Enskog"][: len(columns) + 1]
        return Table(names, list(zip(times, *columns)), [*notes, *self.notes()])


def wandering(counted: np.ndarray, first: np.ndarray, second: np.ndarray) -> np.ndarray:
    """The variance of how much sums differ. Their mean isn't 0 in a box with unequal sides, as walls make stress too."""
    return second / counted - (first / counted) ** 2

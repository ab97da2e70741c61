"""How sure a mean over time is: the one place in which errors are made. A stated error is one standard deviation.

What is measured is a series in time, of some short blocks; of a value that isn't a mean itself, each block is left out in
turn (the jackknife). Its slow waves say the error of its mean: see `spectra`. A wave is slow if half of its period is as
long as sound takes to cross the box, as the time between two states that are compared, and as order remembers: see `order`.

The heat of the inside changes over times that are longer than that, and what is measured follows it. So its slope by the
heat is found by regression over the same waves. What the heat makes of it is taken off, as by a control variate, and comes
back as the slope times the error of the mean heat, which hydrodynamics says: see `heat`. Near freezing it doesn't, and the
measure has to be much longer than all that."""
from typing import Callable

import numpy as np

from .heat import Heat
from .order import SLOW
from .sampling import Sampling, rough
from .spectra import LEAST_FOR_FIT, MOST, cosines, sines, slowest

# Into how many blocks the time is cut.
BLOCKS = 120
# How many waves count at least, even if they aren't slow; and how many have a part in a slope at least.
LEAST, FOR_SLOPE = 3, 12
# If the slowest of so many waves are by that much greater than the mean one, all numbers together, there are slower ones.
FOR_GROWTH, GROWTH = 12, 1.9
# A measure that is shorter than so many times that of heat has errors that are rough.
HEAT_TIMES = 5
# What is left where the heat's part is taken off is no less than this share of what it was.
LEFT = 0.5


def spread_error(values: np.ndarray) -> np.ndarray:
    """The standard error of the mean of independent values along the first axis: not a number where nothing varies."""
    values = np.asarray(values, float)
    if len(values) < 2:
        return np.full(values.shape[1:], np.nan)
    return known_errors(values.var(axis=0, ddof=1) / len(values), values.mean(axis=0))


def known_errors(squares: np.ndarray, values: np.ndarray) -> np.ndarray:
    """The roots of squared errors of values, where they aren't those of roundings."""
    with np.errstate(invalid="ignore"):
        errors = np.sqrt(squares)
        return np.where(errors > 1e-12 * np.abs(values), errors, np.nan)


def slopes(waves: np.ndarray, by: np.ndarray) -> tuple[np.ndarray, np.ndarray, np.ndarray]:
    """The slopes of columns of waves by those of one variable, what is left of them, and which share of each wave is left."""
    squares = (by**2).sum()
    slope = by @ waves / squares
    return slope, waves - np.outer(by, slope), 1 - by**2 / squares


class Errors:
    """Makes the errors of one measure, and says how."""

    def __init__(self, sampling: Sampling):
        self.sampling, self.heat = sampling, Heat(sampling)
        self.time = (sampling.scene.end - sampling.start) / sampling.scene.time
        # How many waves were used at least, from which lag on there were too few, and what was added to what they say.
        self.used, self.too_late = 0, np.inf
        self.parts: list[str] = []
        self.growth: list[float] = []

    def of(
        self, value: Callable, *sums: np.ndarray, lag: float = 0.0, follows_heat: bool = True
    ) -> tuple[np.ndarray, np.ndarray]:
        """A value and its error, where `value` takes sums over time: arrays whose first axis is the sampling's blocks.

        If states are compared that are `lag` apart, in σ / v, the sums are by the earlier one. What is the same all over
        the box follows sound instead of the heat of the inside."""
        with np.errstate(invalid="ignore", divide="ignore"):
            whole = np.asarray(value(*(it.sum(axis=0) for it in sums)), float)
        series = self.series(value, sums, lag)
        if series is None:
            return whole, np.full(whole.shape, np.nan)
        waves = self.waves(series, lag)
        entropy = self.entropy(lag, len(waves)) if follows_heat else None
        if not follows_heat:
            squares = self.with_sound(series, waves, lag)
        else:
            squares = self.squares(waves, lag) if entropy is None else self.with_heat(waves, entropy, lag)
        return whole, known_errors(squares, whole.ravel()).reshape(whole.shape)

    def ratio(self, sums: np.ndarray, weights: np.ndarray, lag: float = 0.0) -> tuple[np.ndarray, np.ndarray]:
        """The ratio of two sums, and its error."""
        return self.of(np.divide, sums, weights, lag=lag)

    def by_density(self, value: Callable, *sums: np.ndarray, follow: list[int]) -> tuple[np.ndarray, ...]:
        """Values of which the first is the packing fraction inside and the others follow it; their errors; and the errors
        that the others would have if that packing fraction were known: by those an equation of state is tested.

        In the long run the value `follow[i]` has the slope by the packing fraction that the value i has."""
        whole = np.asarray(value(*(it.sum(axis=0) for it in sums)), float)
        series = self.series(value, sums, 0.0)
        waves = None if series is None else self.waves(series, 0.0)
        if waves is None or len(waves) < LEAST_FOR_FIT or not waves[:, 0].any():
            errors = np.full(whole.shape, np.nan) if waves is None else known_errors(self.squares(waves, 0.0), whole)
            return whole, errors, np.full(whole.shape, np.nan)
        density = waves[:, 0]
        slope, rest, left = slopes(waves, density)
        known = self.squares(rest, 0.0, left)
        is_own = np.array(follow) == np.arange(len(whole))
        others = self.squares(waves - np.outer(density, slope[follow]), 0.0)
        of_density = self.of_density(density)
        of_slope = np.maximum(slope[follow] ** 2 - np.where(is_own, known, 0) / (density**2).sum(), 0)
        squares = np.where(is_own, known, others) + of_slope * of_density
        squares[0], known[0] = of_density, np.nan
        return whole, known_errors(squares, whole), known_errors(np.where(is_own, known, others), whole)

    def counted(self, lag: float) -> int:
        """How many waves count: those that are slow beside sound, the lag and memory, but for memory no less than a fit wants."""
        time, memory = self.time - lag, self.heat.order.memory
        by_order = max(int(time / (SLOW * memory)), LEAST_FOR_FIT) if memory else MOST
        return int(np.clip(min(time / max(lag, self.heat.times[0]), by_order), LEAST, MOST))

    def series(self, value: Callable, sums: tuple[np.ndarray, ...], lag: float) -> np.ndarray | None:
        """Values of blocks, by leaving out each in turn. None if there is too little for two blocks, for waves that are slow
        beside the lag, or for what order remembers."""
        if lag and round(self.time / lag) - 1 < LEAST:
            self.too_late = min(self.too_late, lag)
            return None
        if len(self.heat.rows) < 2 or self.heat.order.is_unknown:
            return None
        used = (1 - lag / self.time) * len(sums[0])
        count = max(int(min(BLOCKS, used, len(self.heat.rows) / 2)), 2)
        edges = np.rint(np.arange(count + 1) / count * used).astype(int)
        if (np.diff(edges) < 1).any():
            return None
        parts = [np.add.reduceat(it[: edges[-1]], edges[:-1], axis=0) for it in sums]
        totals = [it.sum(axis=0) for it in parts]
        with np.errstate(invalid="ignore", divide="ignore"):
            whole = np.asarray(value(*totals), float)
            others = [value(*(total - it[place] for total, it in zip(totals, parts))) for place in range(count)]
            return (count * whole - (count - 1) * np.array(others, float)).reshape(count, -1)

    def waves(self, series: np.ndarray, lag: float) -> np.ndarray:
        """The slowest waves of a series, as many as there may be need of."""
        with np.errstate(invalid="ignore"):
            return cosines(series, min(max(self.counted(lag), FOR_SLOPE), len(series) - 1))

    def squares(self, waves: np.ndarray, lag: float, left: np.ndarray | None = None) -> np.ndarray:
        """The squared errors of means by those waves that count; `left` is which share of each a regression has left."""
        count = min(self.counted(lag), len(waves))
        squares = waves[:count] ** 2
        found = slowest(squares, None if left is None else left[:count])
        self.used = min(self.used, count) if self.used else count
        if count >= FOR_GROWTH:
            with np.errstate(invalid="ignore", divide="ignore"):
                growth = found / squares.mean(axis=0)
            self.growth += growth[np.isfinite(growth)].tolist()
        return found

    def entropy(self, lag: float, count: int) -> np.ndarray | None:
        """The slowest waves of the mean entropy of the inside, from one to the other of two states that are compared; none if it
        isn't known all the time, or says too little."""
        if not self.heat.is_known or self.heat.order.is_dense or count < LEAST_FOR_FIT:
            return None
        ticks = lag * self.sampling.scene.time
        values = self.heat.until(self.sampling.scene.end - ticks, 4 * count, ticks)
        return None if values is None else cosines(values[:, None], count)[:, 0]

    def with_sound(self, series: np.ndarray, waves: np.ndarray, lag: float) -> np.ndarray:
        """The squared errors of means of what follows sound: that is even over the box in the long run, so a mean over time has
        a part that is by what is there at both ends. Cosines see that part twice, sines don't."""
        with np.errstate(invalid="ignore"):
            by_sines = slowest(sines(series, max(self.counted(lag) // 2, 1)) ** 2)
        return (self.squares(waves, lag) + by_sines) / 2

    def with_heat(self, waves: np.ndarray, entropy: np.ndarray, lag: float) -> np.ndarray:
        """The squared errors of means of what follows the heat of the inside."""
        slope, rest, left = slopes(waves, entropy)
        squares, power = self.squares(rest, lag, left), (entropy**2).sum()
        variance = self.heat.variance_of_mean(self.time - lag)
        if lag:
            # Few waves are slow beside a lag: their slope is too rough to count beyond what they have.
            variance = min(variance, power)
        # The square of a slope is too great by that of its error, which each wave makes by what is left of it.
        of_slope = entropy**2 @ (rest**2 / left[:, None]) / power**2
        return np.maximum(squares + (slope**2 - of_slope) * variance, LEFT * squares)

    def of_density(self, waves: np.ndarray) -> float:
        """The squared error of the mean packing fraction, whose slope by the heat is known: it comes and goes at one
        pressure."""
        entropy = self.entropy(0.0, len(waves))
        if entropy is None:
            return float(self.squares(waves[:, None], 0.0)[0])
        slope = self.heat.fluid.expansion
        rest = float(self.squares((waves - slope * entropy)[:, None], 0.0)[0])
        return rest + slope**2 * self.heat.variance_of_mean(self.time)

    def notes(self) -> list[str]:
        """By how many waves errors are, and why they may be wrong."""
        order = self.heat.order
        if np.isinf(order.memory):
            return [
                "CAUTION: so few states, or sums alone, don't say the correlation time of psi6, so errors are unknown: take several seeds"
            ]
        if order.is_unknown:
            return [
                f"CAUTION: the correlation time of psi6 is some {rough(order.memory)} sigma/v, so {self.time:.4g} are too short, and"
                f" errors are unknown: take {rough(2 * order.least_time)} or more, or several seeds"
            ]
        late = []
        if self.too_late < np.inf:
            late.append(
                f"CAUTION: from the time {self.too_late:.4g} sigma/v on errors are unknown, as fewer than {LEAST} modes are slow beside"
                " it: take a longer run, or several seeds"
            )
        if not self.used:
            return late or ["errors are unknown: two blocks of time or more are wanted"]
        sound, heat = self.heat.times
        also = f"the correlation time of psi6, {rough(order.memory)}"
        if not order.is_dense:
            also = f"energy fluctuations, which take {heat:.3g}"
        found = [f"errors: by the {self.used} slowest modes of each series or more, and by {also} sigma/v", *self.parts, *late]
        if self.used < LEAST_FOR_FIT or not order.is_dense and self.time < HEAT_TIMES * heat:
            found.append(
                f"CAUTION: {self.time:.4g} sigma/v are short, so errors are rough: take {rough(10 * max(sound, heat))} or more, or"
                " several seeds"
            )
        if self.growth and np.mean(self.growth) > GROWTH:
            found.append("CAUTION: the slower the modes the greater they are, so errors are the least that they can be")
        return found

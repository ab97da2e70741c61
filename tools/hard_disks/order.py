"""How long the order of a dense fluid remembers: near freezing ψ6, and with it all else, changes more slowly than sound.

Errors have to know that time, and one run can say it only if it is much longer."""
import math
from contextlib import suppress
from functools import cached_property

import numpy as np

from .bonds import order_of
from .sampling import DENSE, Sampling
from .scenes import Refused
from .spectra import LEAST_FOR_FIT, MOST, cosines, slowest

# At how many ticks at most order is looked at.
LOOKS = 240
# A wave counts if half of its period is so many times that of memory: the fit then makes errors 5 % too small.
SLOW = 1.25
# A measure that is shorter than so many times that of memory says no errors. If it is as long, six waves make them 12 % too
# small. A greater bound would leave out just those runs whose order wanders farthest, and the others would seem surer.
LEAST_TIMES = 5


class Order:
    """The mean of |ψ6| and the size of the mean of ψ6 inside at some ticks, if the fluid is dense. Only then it says what it
    found."""

    def __init__(self, sampling: Sampling):
        self.sampling, self.is_dense = sampling, sampling.scene.phi >= DENSE[0]
        self.rows: list[tuple[int, float, float]] = []

    def add(self, tick: int, rows: np.ndarray) -> None:
        """All disks at a tick, as rows of x, y, vx and vy."""
        sampling = self.sampling
        if not self.is_dense or tick < sampling.start or len(rows) < 3:
            return
        if self.rows and tick < self.rows[-1][0] + max((sampling.scene.end - sampling.start) // LOOKS, 1):
            return
        inside = sampling.inside(rows[:, :2])
        # Disks on one line have no order.
        with suppress(Refused):
            if inside.any():
                order = order_of(rows)[0][inside]
                self.rows.append((tick, float(np.abs(order).mean()), float(abs(order.mean()))))

    @cached_property
    def memory(self) -> float:
        """The integrated autocorrelation time of both, before and after, in σ / v; 0 where it needn't be known, and infinite
        where nothing says it: too few ticks, sums alone, or an order that never changes."""
        if not self.is_dense:
            return 0.0
        values = np.array(self.rows, float).reshape(-1, 3)[:, 1:]
        if len(values) < 2 * LEAST_FOR_FIT or not (values.std(axis=0) > 0).all():
            return math.inf
        time = (self.sampling.scene.end - self.sampling.start) / self.sampling.scene.time
        squares = cosines(values, min(MOST, len(values) // 2)) ** 2
        # The fewer waves, the slower they are; as many count as are slow beside the memory that they show.
        while True:
            found = float((slowest(squares) / values.var(axis=0)).mean()) * time
            count = max(int(time / (SLOW * found)), LEAST_FOR_FIT)
            if count >= len(squares):
                return found
            squares = squares[:count]

    @cached_property
    def is_unknown(self) -> bool:
        """Whether the measure is too short beside its memory, so that one run can't say errors."""
        time = (self.sampling.scene.end - self.sampling.start) / self.sampling.scene.time
        return time < self.least_time

    @property
    def least_time(self) -> float:
        """How long a measure has to be, so that its errors are known."""
        return LEAST_TIMES * self.memory

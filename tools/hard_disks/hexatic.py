"""How far bond order reaches: the correlation g6(r) of ψ6, by states."""
import numpy as np

from .bonds import order_of
from .measuring import Measure
from .runs import Frame
from .sampling import Sampling, Stated, Table, bin_edges
from .scenes import Refused
from .waves import LINEAR, check_grid, spread

# The step of the grid on which pairs are counted, in σ. It blurs distances by some 0.05 σ.
STEP = 0.08


class BondCorrelation(Measure):
    """g6(r), the mean of ψ6* ψ6' over all two disks inside at the distance r, in bins of a width, in σ.

    As a mean over pairs it is already divided by g(r). It goes up to `most`, else to 20 σ or half of the box inside."""

    def __init__(self, sampling: Sampling, most: float | None = None, width: float = 0.5):
        super().__init__(sampling)
        scene = self.scene
        sides = (np.array([scene.width, scene.height]) - 2 * sampling.margin) / scene.sigma
        most = min(20.0, sides.min() / 2) if most is None else most
        if most >= sides.min():
            raise Refused(f"the box inside is {sides.min():.4g} sigma wide, too little for distances up to {most:g} sigma")
        if width < 2 * STEP:
            raise Refused(f"bins of {width:g} are too fine: {2 * STEP:g} sigma is the least")
        self.edges, self.width = bin_edges(most, width), width
        self.pairs = Pairs(sides, self.edges)
        self.sums, self.weights = np.zeros((2, sampling.blocks, len(self.edges) - 1))
        self.squares, self.disks = np.zeros((2, sampling.blocks))
        self.frames = 0

    def add_state(self, frame: Frame) -> None:
        sampling, places = self.sampling, frame.rows[:, :2]
        block, inside = sampling.block(frame.tick), sampling.inside(places)
        order = order_of(frame.rows)[0][inside]
        products, numbers = self.pairs.sums((places[inside] - sampling.margin) / self.scene.sigma, order)
        self.sums[block] += products
        self.weights[block] += numbers
        self.squares[block] += (np.abs(order) ** 2).sum()
        self.disks[block] += len(order)
        self.frames += 1

    def table(self) -> Table:
        correlation, errors = self.errors.ratio(self.sums, self.weights)
        own, own_error = map(float, self.errors.ratio(self.squares, self.disks))
        # Nearer than the least diameter there are none.
        least = min(row[4] for row in self.scene.disks) / self.scene.sigma
        known = (self.edges[1:] > least + 2 * STEP) & (self.weights.sum(axis=0) > 0)
        distance = (self.edges[:-1] + self.width / 2)[known]
        # The slowest fall that a fluid may have: where it melts into hexatic order.
        power = correlation[known][:1] * (distance / distance[:1]) ** -0.25
        rows = list(zip(distance, correlation[known], errors[known], correlation[known] / own, power))
        notes = [
            f"{self.frames} frames; g6 is the mean of psi6* psi6' over two disks at a distance, so divided by g(r);"
            " g6_relative is divided by that at 0 too",
            Stated("there it is the mean of |psi6|^2", own, own_error),
        ]
        return Table(["r", "g6", "g6_error", "g6_relative", "g6_quarter_power"], rows, [*notes, *self.notes()])


class Pairs:
    """Sums over all two disks in a rectangle by their distance, on a grid that is greater than it by the greatest one."""

    def __init__(self, sides: np.ndarray, edges: np.ndarray):
        from scipy.fft import next_fast_len

        self.shape = tuple(next_fast_len(int((side + edges[-1]) / STEP) + 4) for side in sides)
        check_grid(self.shape)
        reach = int(edges[-1] / STEP) + 1
        self.steps = np.arange(-reach, reach + 1)
        found = np.digitize(np.hypot(self.steps[:, None], self.steps) * STEP, edges) - 1
        self.count, self.used = len(edges) - 1, found < len(edges) - 1
        self.bins = found[self.used]

    def sums(self, places: np.ndarray, order: np.ndarray) -> tuple[np.ndarray, ...]:
        """Of all two disks in each bin the sum of the products of one's value and the other's conjugate, and their number."""
        from scipy.fft import fft2, ifft2

        ones, real, imaginary = (
            spread(places / STEP, values, self.shape, LINEAR) for values in (np.ones(len(order)), order.real, order.imag)
        )
        # Both powers are real, so that one transform back has both: what mixes turns its sign with the distance's.
        powers = np.abs(fft2(real + 1j * imaginary)) ** 2 + 1j * np.abs(fft2(ones)) ** 2
        found = ifft2(powers)[np.ix_(self.steps, self.steps)][self.used]
        return tuple(np.bincount(self.bins, part, self.count) for part in (found.real, found.imag))

"""What neutrons or light would say of the disks' motion: the intermediate scattering functions, and how far displacements
are from normal ones. By frames."""
import numpy as np

from .dynamics import Earlier, Lagged
from .sampling import Sampling, Stated, Table
from .scenes import Refused
from .waves import Waves

# The wave number that is looked at where none is asked for, in 1 / σ: near the first peak of S(k) of a dense fluid.
PEAK = 6.5
# Wave vectors of F(k, t) have this size in 1 / σ, or as much more or less.
NEAR = 0.1
# Along how many directions, over a half circle, single disks are looked at.
DIRECTIONS = 4


class Scattering(Lagged):
    """At the wave number k, in 1 / σ, with Δr the displacement in the time t of disks inside at the earlier frame:

    Fs(k, t) = ⟨exp(i k · Δr)⟩,  F(k, t) = ⟨Σ w exp(i k · r(t)) · Σ w exp(-i k · r(0))⟩ / ⟨Σ w²⟩ with the window w of S(k),
    α2(t) = ⟨Δr⁴⟩ / (2 ⟨Δr²⟩²) - 1, which is 0 if displacements are normal."""

    # Squares and fourth powers of displacements, exp(i k · Δr), and of F its products and weights.
    width = 5

    def __init__(self, sampling: Sampling, most: float | None = None, wave: float = PEAK):
        super().__init__(sampling, most)
        scene = self.scene
        self.wave = wave
        self.sides = (np.array([scene.width, scene.height]) - 2 * sampling.margin) / scene.sigma
        self.waves = Waves(*self.sides, *((wave + NEAR) * self.sides / (2 * np.pi) + 1).astype(int))
        i, j = self.waves.numbers()
        size = np.hypot(2 * np.pi * i[:, None] / self.sides[0], 2 * np.pi * j / self.sides[1])
        # As in S(k), the window itself has a part at the least wave vectors.
        self.used = (abs(size - wave) <= NEAR) & ((i > 1)[:, None] | (abs(j) > 1))
        if not self.used.any():
            raise Refused(f"no wave vector of the box inside is some {wave:g} / sigma long: take a greater --wave")
        angles = np.pi * np.arange(DIRECTIONS) / DIRECTIONS
        self.vectors = wave / scene.sigma * np.array([np.cos(angles), np.sin(angles)])
        # Of each earlier frame exp(i k · r) of each disk inside along each direction, and the sums of all of them.
        self.single = np.zeros((self.steps + 1, len(scene.disks) * DIRECTIONS), complex)
        self.sums_of_all = np.zeros((self.steps + 1, self.used.sum()), complex)
        self.squares_of_window = np.zeros(self.steps + 1)

    def found(self, earlier: Earlier, rows: np.ndarray) -> tuple[np.ndarray, ...]:
        place = (earlier.added - 1) % len(self.single)
        phases = np.exp(1j * ((rows[:, :2] - earlier.origin) @ self.vectors))
        is_inside = earlier.inside[place].astype(bool)
        self.single[place] = (phases * is_inside[:, None]).ravel()
        places = (rows[is_inside, :2] - self.sampling.margin) / self.scene.sigma
        window = np.prod(np.sin(np.pi * places / self.sides) ** 2, axis=1)
        self.sums_of_all[place] = self.waves.sums(places, window)[self.used]
        self.squares_of_window[place] = (window**2).sum()
        alone = (self.single @ phases.ravel().conj()).real / DIRECTIONS
        together = (self.sums_of_all @ self.sums_of_all[place].conj()).real / self.used.sum()
        squares, fourth = self.powers(earlier, rows)
        return squares, fourth, alone, together, self.squares_of_window

    def powers(self, earlier: Earlier, rows: np.ndarray) -> tuple[np.ndarray, np.ndarray]:
        """Of each earlier frame the sums of squared displacements and of their squares, in σ."""
        moved = (rows[:, :2] - earlier.origin).astype(float)
        found = np.zeros((2, len(self.single)))
        for place in earlier.newest_first():
            ways = (moved - earlier.places[place].reshape(-1, 2)) / self.scene.sigma
            squares = (ways**2).sum(axis=1) * earlier.inside[place]
            found[:, place] = squares.sum(), squares @ squares
        return found[0], found[1]

    def table(self) -> Table:
        times, (squares, fourth, alone, together, window), weights = self.known()
        single, both = self.means(times, alone, weights), self.means(times, together, window)
        shape = np.array([
            self.errors.of(excess, weights[:, lag], squares[:, lag], fourth[:, lag], lag=time) for lag, time in enumerate(times)
        ]).T
        # At the time 0 nothing has moved.
        single[1, times == 0], shape[:, times == 0] = 0, np.nan
        msd = squares.sum(axis=0) / weights.sum(axis=0)
        notes = [
            f"at k = {self.wave:g} / sigma; Fs_Gauss is exp(-k^2 msd / 4), which Fs is if displacements are normal; F at the time 0 is S(k)",
            Stated("S(k)", *both[:, 0].tolist()),
        ]
        rows = list(zip(times, *single, *both, *shape, np.exp(-(self.wave**2) * msd / 4)))
        return Table(["time", "Fs", "Fs_error", "F", "F_error", "alpha2", "alpha2_error", "Fs_Gauss"], rows, [*notes, *self.notes()])


def excess(weights: np.ndarray, squares: np.ndarray, fourth: np.ndarray) -> np.ndarray:
    """α2 by sums of displacements."""
    return fourth * weights / (2 * squares**2) - 1

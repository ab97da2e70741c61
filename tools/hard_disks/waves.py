"""Sums over disks at many wave vectors or distances at once, by a grid and the fast Fourier transform."""
import math
from dataclasses import dataclass
from typing import Callable

import numpy as np

from .scenes import Refused

# The shape of the window of Kaiser and Bessel over six points, for a grid twice as fine as the greatest wave vector needs.
# Sums are then right to some 1e-5 of the root of the disks' number.
REACH = 6
SHAPE = math.pi * math.sqrt((REACH * 0.75) ** 2 - 0.8)
# A grid may have so many points, each of 8 or 16 bytes.
MOST_POINTS = 2**26


def check_grid(shape: tuple[int, int]) -> None:
    if math.prod(shape) > MOST_POINTS:
        raise Refused(f"that takes a grid of {shape[0]} times {shape[1]} points, of {MOST_POINTS} at most: take a lesser --most")


@dataclass(frozen=True)
class Window:
    """How a disk is spread along an axis: over so many points of a grid, by a function of their distance in its steps."""

    reach: int
    share: Callable[[np.ndarray], np.ndarray]

    def near(self, places: np.ndarray, count: int) -> tuple[np.ndarray, np.ndarray]:
        """For each place along a periodic axis of so many points those near it, and its share in each."""
        points = np.floor(places).astype(np.int64)[:, None] + np.arange(1 - self.reach // 2, 1 + self.reach // 2)
        return points % count, self.share(places[:, None] - points)


def kaiser(away: np.ndarray) -> np.ndarray:
    from scipy.special import i0

    return i0(SHAPE * np.sqrt(np.maximum(1 - (2 * away / REACH) ** 2, 0)))


KAISER, LINEAR = Window(REACH, kaiser), Window(2, lambda away: 1 - np.abs(away))


def spread(places: np.ndarray, values: np.ndarray, shape: tuple[int, int], window: Window) -> np.ndarray:
    """The values of disks on a periodic grid; places are in its steps, and the grid's first axis is that of x."""
    columns, rows = (window.near(places[:, axis], shape[axis]) for axis in (0, 1))
    points = (columns[0][:, :, None] * shape[1] + rows[0][:, None, :]).ravel()
    shares = (columns[1] * values[:, None])[:, :, None] * rows[1][:, None, :]
    return np.bincount(points, shares.ravel(), shape[0] * shape[1]).reshape(shape)


def kaiser_factor(turns: np.ndarray) -> np.ndarray:
    """By what that window makes a wave greater that turns by so much from point to point, along one axis."""
    root = np.sqrt(SHAPE**2 - (REACH * turns / 2) ** 2)
    return REACH * np.sinh(root) / root


class Waves:
    """The wave vectors 2 π (i / width, j / height) of a rectangle, for i from 0 to `across` and j from -`up` to `up`."""

    def __init__(self, width: float, height: float, across: int, up: int):
        from scipy.fft import next_fast_len

        self.sides, self.across, self.up = np.array([width, height]), int(across), int(up)
        self.shape = tuple(next_fast_len(max(4 * int(count), 2 * REACH), real=True) for count in (across, up))
        check_grid(self.shape)

    def numbers(self) -> tuple[np.ndarray, np.ndarray]:
        """Each i and each j."""
        return np.arange(self.across + 1), np.arange(-self.up, self.up + 1)

    def sums(self, places: np.ndarray, values: np.ndarray) -> np.ndarray:
        """The sum of value · exp(i k · r) over the disks, with a row for each i and a column for each j."""
        from scipy.fft import rfft2

        grid = spread(places / self.sides * self.shape, values, self.shape, KAISER)
        # Along the axis that is named last, that of x, there is half of the transform.
        found = rfft2(grid, axes=(1, 0))
        i, j = self.numbers()
        factors = (kaiser_factor(2 * np.pi * it / points) for it, points in zip((i, j), self.shape))
        return np.conj(found[: self.across + 1, j]) / np.outer(*factors)

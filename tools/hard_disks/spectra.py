"""The slow waves of a series in time, and what they say of its mean.

A series is a sum of cosine waves. If its values are independent, the mean square of each wave is the variance of the mean;
if they remember, that holds in the limit of slow waves. So the squares are fitted by a parabola in the wave's number, and
its value at 0 is the variance of the mean (P. Heidelberger and P. D. Welch, Communications of the ACM 24, 233, 1981). Unlike
the spread of blocks that isn't too small because a block's end remembers its start, and nothing is chosen by what comes
out."""
import numpy as np

# How many of the slowest waves count at most.
MOST = 24
# With fewer waves than this there is no fit, but a mean of their squares, in which the slower ones count more.
LEAST_FOR_FIT = 6
# The fit is no less than this share of the mean.
FLOOR = 0.5


def cosines(values: np.ndarray, count: int) -> np.ndarray:
    """The slowest waves of columns of values in time, one in each row."""
    phases = np.pi * np.outer(np.arange(1, count + 1), np.arange(len(values)) + 0.5) / len(values)
    return np.sqrt(2) / len(values) * (np.cos(phases) @ (values - values.mean(axis=0)))


def sines(values: np.ndarray, count: int) -> np.ndarray:
    """The slowest waves that are whole sines: what is the difference of something at two ends alone doesn't show in them."""
    phases = 2 * np.pi * np.outer(np.arange(1, count + 1), np.arange(len(values)) + 0.5) / len(values)
    return np.sqrt(2) / len(values) * (np.sin(phases) @ values)


def slowest(squares: np.ndarray, left: np.ndarray | None = None) -> np.ndarray:
    """What columns of squares of waves are in the limit of slow ones; `left` is which share of each a regression has left."""
    left = np.ones(len(squares)) if left is None else left
    number = np.arange(1, len(squares) + 1)
    if len(squares) < LEAST_FOR_FIT:
        weight = 1 - (number / (len(number) + 1)) ** 2
        return weight @ squares / (weight @ left)
    parabola = left[:, None] * np.column_stack([np.ones(len(number)), number**2])
    return np.maximum(np.linalg.pinv(parabola)[0] @ squares, FLOOR * squares.sum(axis=0) / left.sum())

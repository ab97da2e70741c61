"""The bond order ψ6 of disks."""
import numpy as np

from .scenes import Refused

# The rows that were asked for last, and what was found: several measures of one pass ask for the same ones.
last: list = [None, None]


def order_of(rows: np.ndarray) -> tuple[np.ndarray, np.ndarray]:
    """What `bond_order` says of the places of rows of x, y, vx and vy, which nobody changes."""
    if last[0] is not rows:
        last[:] = rows, bond_order(rows[:, :2])
    return last[1]


def bond_order(places: np.ndarray) -> tuple[np.ndarray, np.ndarray]:
    """Of each disk ψ6, the mean of exp(6 i θ) over its neighbours by Delaunay's triangles, and how many they are."""
    from scipy.spatial import Delaunay, QhullError

    try:
        starts, neighbours = Delaunay(places).vertex_neighbor_vertices
    except (QhullError, ValueError) as why:
        raise Refused("psi6 needs three disks that don't lie on one line") from why
    counts = np.diff(starts)
    own = np.repeat(np.arange(len(places)), counts)
    x, y = (places[neighbours] - places[own]).T.astype(float)
    turned = np.exp(6j * np.arctan2(y, x))
    sums = np.bincount(own, turned.real, len(places)) + 1j * np.bincount(own, turned.imag, len(places))
    return sums / np.maximum(counts, 1), counts

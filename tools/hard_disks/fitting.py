"""Makes the scene of disks that lie somewhere already, in any units."""
import math

import numpy as np

from .making import LIMIT_SPEEDS, ROUND_LIMIT, TICKS_BY_DIAMETER, thermal_speed
from .scenes import MOST_DISKS, MOST_WIDTH, Refused, Scene

# The least gap between two disks, by what v goes in a tick: disks with less room jam, and pass the limit of rounds.
ROOM = 5
# Disks that touch may overlap by this share of a mean diameter, as their places were written with few digits.
LAP = 1e-4


def fit(width: float, height: float, disks, time: float = 40.0, every: float | None = None) -> Scene:
    """The scene of disks in any units: rows of x, y, vx, vy and the diameter. The scene's units are as fine as fits, and its
    times are reduced.

    Where disks nearly touch, all radii are made smaller until there is room between them."""
    given = np.array(disks, float).reshape(-1, 5)
    if not 1 <= len(given) <= MOST_DISKS:
        raise Refused(f"a scene has 1 to {MOST_DISKS} disks, not {len(given)}")
    if not (np.isfinite(given).all() and (given[:, 4] > 0).all() and 0 < min(width, height) <= max(width, height) < np.inf):
        raise Refused("a number isn't finite, or a side or a diameter isn't above 0")
    box = np.array([width, height]) / max(width, height) * MOST_WIDTH
    if outside := np.flatnonzero((given[:, :2] < 0).any(axis=1) | (given[:, :2] > [width, height]).any(axis=1)).tolist():
        raise Refused(f"disk {outside[0]} isn't inside the box")
    if not given[:, 2:4].any():
        raise Refused("no disk moves, so there is no unit of time")
    velocities = given[:, 2:4] / np.abs(given[:, 2:4]).max()
    velocities /= math.sqrt((velocities**2).mean())
    places = np.rint(given[:, :2] / max(width, height) * MOST_WIDTH)
    radii = given[:, 4] / max(width, height) * MOST_WIDTH / 2
    if radii.min() < TICKS_BY_DIAMETER + 1:
        raise Refused("disks are too small for the finest units of a scene")
    limit = max(LIMIT_SPEEDS, 4 * np.abs(velocities).max())
    speed = thermal_speed(2 * radii, limit)
    radii = np.floor(radii - max(narrowest(places, radii, np.floor(box), ROOM * speed), 0)).astype(np.int64)
    whole = np.hstack([places, np.rint(velocities * speed)]).astype(np.int64)
    rows = np.column_stack([whole, 2 * radii]).tolist()
    sides = np.floor(box).astype(int).tolist()
    scene = Scene(*sides, 2 * int(radii.max()), round(limit * speed), ROUND_LIMIT, 0, None, tuple(map(tuple, rows)))
    return scene.timed(time, every)


def narrowest(places: np.ndarray, radii: np.ndarray, box: np.ndarray, room: float) -> float:
    """How much all radii have to lose, so that there is so much room between each two disks, and half of it at walls."""
    from scipy.spatial import cKDTree

    lap = 2 * LAP * radii.mean()
    walls = np.minimum(places, box - places).min(axis=1) - radii
    if walls.min() < -lap:
        raise Refused(f"disk {walls.argmin()} isn't inside the box")
    near = cKDTree(places).query_pairs(2 * radii.max() + room, output_type="ndarray")
    gaps = np.hypot(*(places[near[:, 0]] - places[near[:, 1]]).T) - radii[near].sum(axis=1)
    if gaps.min(initial=0) < -lap:
        raise Refused("disks {} and {} overlap".format(*sorted(near[gaps.argmin()])))
    return max(room - gaps.min(initial=room), room - 2 * walls.min()) / 2

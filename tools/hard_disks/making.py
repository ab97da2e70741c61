"""Makes scenes from a packing fraction: disks on a lattice, thrown in or softened, with normal velocities and no drift."""
import math
from dataclasses import dataclass

import numpy as np

from .scenes import MOST_DISKS, MOST_SPEED, MOST_WIDTH, Refused, Scene
from .soft import soften

# A speed limit of so many thermal speeds is met by none in 10^100 collisions; a round limit of 64 neither.
LIMIT_SPEEDS, ROUND_LIMIT = 25, 64
# A disk goes a diameter in so many ticks, unless that makes it slower than the speed below, in units per tick: a
# collision comes up to a tick early, and velocities are rounded.
TICKS_BY_DIAMETER, LEAST_SPEED = 10_000, 1_000
# So often every disk that isn't placed is thrown anew.
THROWS = 3_000


@dataclass
class Lattice:
    """Sites in a box, where lengths are distances of neighbours."""

    width: float
    height: float
    sites: np.ndarray | None


def square(count: int) -> Lattice:
    """The square lattice that has so many sites at least, in nearly a square."""
    up = math.isqrt(count - 1) + 1
    across = -(-count // up)
    i, j = np.divmod(np.arange(across * up), up)
    return Lattice(across, up, np.column_stack([i + 0.5, j + 0.5]))


def hexagonal(count: int) -> Lattice:
    """The triangular lattice, rows half a distance to and fro, with few sites too many and nearly a square box."""
    row = math.sqrt(3) / 2

    def unfit(up):
        across = -(-count // up)
        return (across * up - count) / count + abs(math.log((across + 0.5) / ((up - 1) * row + 1)))

    middle = max(round(math.sqrt(count / row)), 1)
    up = min(range(max(middle // 2, 1), 2 * middle + 1), key=unfit)
    across = -(-count // up)
    i, j = np.divmod(np.arange(across * up), up)
    return Lattice(across + 0.5, (up - 1) * row + 1, np.column_stack([i + 0.5 + j % 2 / 2, j * row + 0.5]))


LATTICES = {"hex": hexagonal, "square": square}


def relative_sizes(count: int, sizes, chance: np.random.Generator) -> np.ndarray:
    """The diameter of each disk by pairs of a diameter and a share, in a drawn order."""
    diameters, shares = np.array(sizes, float).T
    if not (diameters > 0).all() or not (shares > 0).all():
        raise Refused("sizes and their shares have to be above 0")
    bounds = np.rint(np.cumsum(shares) / shares.sum() * count).astype(int)
    numbers = np.diff(bounds, prepend=0)
    if not numbers.all():
        raise Refused(f"{count} disks are too few for these shares of sizes")
    return chance.permutation(np.repeat(diameters, numbers))


def make(
    count: int, phi: float, sizes=((1.0, 1.0),), seed: int = 1, lattice: str = "hex", time: float = 40.0, every: float | None = None,
    speeds: str = "normal",
) -> Scene:
    """The scene of so many disks at a packing fraction over the whole box; times are reduced."""
    if not 1 <= count <= MOST_DISKS:
        raise Refused(f"a scene has 1 to {MOST_DISKS} disks, not {count}")
    if not 0 < phi < 1:
        raise Refused(f"no packing fraction is {phi}")
    chance = np.random.default_rng(seed)
    relative = relative_sizes(count, sizes, chance)
    area = (math.pi / 4 * relative**2).sum() / phi
    shape = LATTICES[lattice](count) if lattice in LATTICES else Lattice(1, 1, None)
    gap = math.sqrt(area / (shape.width * shape.height))
    # Units are as fine as the greater side lets them be.
    unit = MOST_WIDTH / (gap * max(shape.width, shape.height))
    diameters = 2 * np.rint(relative * unit / 2).astype(np.int64)
    if diameters.min() < 2 * TICKS_BY_DIAMETER:
        raise Refused("disks are too small for the finest units of a scene: fewer disks, or sizes nearer each other")
    # A place is rounded by up to half a unit each way.
    if shape.sites is not None and gap * unit < diameters.max() + 2:
        most = phi * (gap / relative.max()) ** 2
        raise Refused(f"a {lattice} lattice holds these {count} disks up to a packing fraction of {most:.4f}, not {phi}")
    box = np.floor(np.array([shape.width, shape.height]) * gap * unit).astype(np.int64)
    if shape.sites is None:
        places = DISORDERED[lattice](box, diameters, chance)
    else:
        places = settle(shape.sites, gap * unit, count, chance)
    speed = thermal_speed(diameters, LIMIT_SPEEDS)
    rows = np.column_stack([places, VELOCITIES[speeds](count, speed, chance), diameters])
    scene = Scene(
        int(box[0]), int(box[1]), int(diameters.max()), round(LIMIT_SPEEDS * speed), ROUND_LIMIT, 0, None,
        tuple(map(tuple, rows.tolist())),
    )
    return scene.timed(time, every)


def thermal_speed(diameters: np.ndarray, limit: float) -> float:
    """The speed v in units per tick, where a speed limit is so many times v."""
    return min(max(LEAST_SPEED, diameters.mean() / TICKS_BY_DIAMETER), MOST_SPEED / limit)


def settle(sites: np.ndarray, gap: float, count: int, chance: np.random.Generator) -> np.ndarray:
    """Places on the lattice, in units; sites that are too many stay empty, drawn by chance."""
    chosen = np.sort(chance.choice(len(sites), count, replace=False))
    return np.rint(sites[chosen] * gap).astype(np.int64)


def velocities(count: int, speed: float, chance: np.random.Generator) -> np.ndarray:
    """Normal velocities in units per tick of this root mean square, whose sum is 0 where there are two disks or more."""
    drawn = chance.normal(size=(count, 2))
    if count > 1:
        drawn -= drawn.mean(axis=0)
    return balanced(np.rint(drawn * speed / np.sqrt((drawn**2).mean())).astype(np.int64))


def equal_velocities(count: int, speed: float, chance: np.random.Generator) -> np.ndarray:
    """Velocities of one size and drawn directions, each two opposite to each other; of an odd number three share the circle."""
    shared = 3 if count % 2 and count > 1 else count % 2
    turns = chance.uniform(0, 2 * np.pi, (count - shared) // 2)
    turns = np.concatenate([turns, turns + np.pi, chance.uniform(0, 2 * np.pi) + 2 * np.pi / 3 * np.arange(shared)])
    drawn = np.sqrt(2) * speed * np.column_stack([np.cos(turns), np.sin(turns)])
    return balanced(np.rint(chance.permutation(drawn)).astype(np.int64))


def balanced(velocities: np.ndarray) -> np.ndarray:
    """The same with what rounding left of their sum taken from the first ones, a unit each, if there are two or more."""
    if len(velocities) > 1:
        for axis, left in enumerate(velocities.sum(axis=0)):
            velocities[: abs(left), axis] -= np.sign(left)
    return velocities


VELOCITIES = {"normal": velocities, "equal": equal_velocities}


def throw(box: np.ndarray, diameters: np.ndarray, chance: np.random.Generator) -> np.ndarray:
    """Places where disks were thrown at random, one after the other where they overlap none, the greatest first."""
    from scipy.spatial import cKDTree

    order = np.argsort(-diameters, kind="stable")
    places, is_placed = np.zeros((len(diameters), 2), np.int64), np.zeros(len(diameters), bool)
    for _ in range(THROWS):
        waiting = order[~is_placed[order]]
        if not len(waiting):
            return places
        waiting = waiting[diameters[waiting] == diameters[waiting[0]]]
        thrown = np.resize(waiting, max(len(waiting), 1_000))
        radii = diameters[thrown, None] // 2
        aims = chance.integers(radii, box - radii + 1)
        placed = np.flatnonzero(is_placed)
        both = np.concatenate([places[placed], aims])
        sizes = np.concatenate([diameters[placed], diameters[thrown]])
        near = cKDTree(both).query_pairs(float(sizes.max()), output_type="ndarray")
        apart, reach = both[near[:, 0]] - both[near[:, 1]], (sizes[near[:, 0]] + sizes[near[:, 1]]) // 2
        late = near[(apart**2).sum(axis=1) < reach**2].max(axis=1, initial=0)
        fits = np.ones(len(both), bool)
        fits[late[late >= len(placed)]] = False
        # Of a disk's aims that fit one is taken; disks of a size are alike.
        good = np.flatnonzero(fits[len(placed):])[: len(waiting)]
        chosen = waiting[: len(good)]
        places[chosen], is_placed[chosen] = aims[good], True
    raise Refused(f"{is_placed.sum()} of {len(diameters)} disks found a place at random; soft or hex hold more")


# How disks find places in a box where they have no lattice.
DISORDERED = {"random": throw, "soft": soften}

"""Dense disordered places: disks at random whose overlaps are minimised, as if they were soft.

Disks thrown in one by one end near φ = 0.53. These fill a box as far as disorder goes: equal disks to 0.8 (where they
form grains of crystal), a mixture of 1 and 1.4 to 0.82."""
import numpy as np

from .scenes import Refused

# Disks are taken for larger by this share, so that gaps stay between them: half of it at least.
SLACK = 1e-3
# So many times at most the overlaps are looked for; places without any are found in some 50 to 500.
LOOKS = 600
# What is denser than the hexagonal lattice of equal disks is refused at once.
DENSEST = 0.907
# Sizes may differ by so much: each disk is compared with all that the greatest one could reach.
MOST_RATIO = 10


def soften(box: np.ndarray, diameters: np.ndarray, chance: np.random.Generator) -> np.ndarray:
    """Places in a box, in units, of disks with even diameters, with gaps of `SLACK` / 2 of the mean diameter or more."""
    from scipy.optimize import minimize

    if diameters.max() > MOST_RATIO * diameters.min():
        raise Refused(f"the sizes of soft disks may differ by a factor of {MOST_RATIO}, not more")
    unit = diameters.mean()
    sizes = diameters / unit * (1 + SLACK)
    least, most = np.broadcast_to(sizes[:, None] / 2, (len(sizes), 2)), box / unit - sizes[:, None] / 2
    if (most < least).any():
        raise Refused("the box is too small for a disk")
    phi = (np.pi / 4 * diameters.astype(float) ** 2).sum() / box.astype(float).prod()
    jammed = Refused(f"{len(sizes)} soft disks overlap at a packing fraction of {phi:.4g} wherever they are pushed: they jam")
    if phi > DENSEST:
        raise jammed
    found = minimize(
        overlap_energy, chance.uniform(least, most).ravel(), (sizes,), jac=True, method="L-BFGS-B",
        bounds=np.column_stack([least.ravel(), most.ravel()]),
        options={"maxiter": LOOKS, "maxfun": LOOKS, "maxcor": 20, "ftol": 0, "gtol": SLACK / 20},
    )
    places = found.x.reshape(-1, 2)
    _, overlaps, _ = overlapping(places, sizes)
    if overlaps.max(initial=0) > SLACK / 2:
        raise jammed
    return np.rint(places * unit).astype(np.int64)


def overlapping(places: np.ndarray, sizes: np.ndarray) -> tuple[np.ndarray, np.ndarray, np.ndarray]:
    """Each two disks that overlap, by how much, and the unit vector from the second to the first."""
    from scipy.spatial import cKDTree

    pairs = cKDTree(places).query_pairs(sizes.max(), output_type="ndarray")
    apart = places[pairs[:, 0]] - places[pairs[:, 1]]
    distance = np.hypot(*apart.T)
    overlap = sizes[pairs].sum(axis=1) / 2 - distance
    # Two at one place have no direction, and are left to their neighbours.
    is_one = (overlap > 0) & (distance > 0)
    return pairs[is_one], overlap[is_one], apart[is_one] / distance[is_one, None]


def overlap_energy(flat: np.ndarray, sizes: np.ndarray) -> tuple[float, np.ndarray]:
    """Half the sum of squared overlaps, and its gradient by the places, which are x and y of each disk in turn."""
    pairs, overlap, direction = overlapping(flat.reshape(-1, 2), sizes)
    push = overlap[:, None] * direction
    gradient = np.zeros((len(sizes), 2))
    for axis in (0, 1):
        gradient[:, axis] += np.bincount(pairs[:, 1], push[:, axis], len(sizes))
        gradient[:, axis] -= np.bincount(pairs[:, 0], push[:, axis], len(sizes))
    return float((overlap**2).sum() / 2), gradient.ravel()

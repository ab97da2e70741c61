"""Says in words what is wrong with a scene: for each refusal of docs/SPECIFICATION.md, section 2.2, what and where."""
import math
from itertools import product
from typing import Iterator

from .scene_text import disks_of, misplaced, read_text, told, unusable
from .scenes import Refused, Scene


def explain(text: bytes) -> list[str]:
    """What is wrong, in the order of the refusals; nothing if the scene is valid."""
    try:
        said = read_text(text)
    except Refused as why:
        return [str(why)]
    return unusable(said) or [*misplaced(said), *told("overlaps", list(overlaps(disks_of(said), said["diameter"])))]


def jammed(scene: Scene) -> str | None:
    """What may end a valid scene's run at once: disks so near each other that they collide again and again in a tick."""
    if not any(row[2:4] != (0, 0) for row in scene.disks):
        return None
    count = sum(1 for *_, gap in near_pairs(scene.disks, scene.diameter, math.ceil(scene.speed)) if gap < scene.speed)
    if not count:
        return None
    return (
        f"gaps of {count} pairs are less than v = {scene.speed:.4g} units, which disks go in a tick: if many touch each other"
        " the run ends at once, at the limit of rounds; smaller diameters or finer units help"
    )


def overlaps(disks: list[tuple[int, ...]], most: int) -> Iterator[str]:
    for i, j, apart, touching, gap in near_pairs(disks, most, 0):
        if apart < touching**2:
            yield f"disks {i} and {j} overlap: their centres are {apart**0.5:.6g} apart, and have to be {touching}"


def near_pairs(disks, most: int, reach: int) -> Iterator[tuple[int, int, int, int, float]]:
    """Two disks whose gap may be up to `reach`: their numbers, the square of their distance, at which distance they touch,
    and the gap. They are found by cells that are as wide as the greatest distance, so they are in one or in neighbours."""
    cells, side = {}, most + reach
    for j, (x, y, _, _, size) in enumerate(disks):
        for across, up in product((-1, 0, 1), repeat=2):
            for i, other_x, other_y, other in cells.get((x // side + across, y // side + up), ()):
                apart, touching = (x - other_x) ** 2 + (y - other_y) ** 2, (size + other) // 2
                if apart < (touching + reach) ** 2:
                    yield i, j, apart, touching, apart**0.5 - touching
        cells.setdefault((x // side, y // side), []).append((j, x, y, size))

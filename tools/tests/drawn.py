"""Drawn scenes and drawn settings, for tests of the program. Scenes are valid; settings change no report."""
import random
from dataclasses import dataclass

import places  # makes the package importable

from hard_disks.scenes import MOST_SPEED, MOST_WIDTH, Scene

# How many places are tried for a disk until it is left out.
TRIES = 20


@dataclass
class Settings:
    """Words that make no difference to a report."""

    regions: int
    workers: int
    turns: int
    steps: int
    burst: str

    def words(self):
        """They as the program takes them."""
        shape = f"--regions {self.regions} --workers {self.workers} --burst {self.burst}"
        return f"{shape} --turns {self.turns} --steps {self.steps}"


def often_greatest(chance, most):
    """A number from 1 to the greatest; a third of the time the greatest itself, and else small as often as great."""
    if chance.random() < 1 / 3:
        return most
    return min(most, int(2 ** chance.uniform(0, most.bit_length())))


def settings(chance):
    """Drawn settings."""
    return Settings(
        regions=often_greatest(chance, 64),
        workers=often_greatest(chance, 8),
        turns=often_greatest(chance, 65_536),
        steps=often_greatest(chance, 4_096),
        burst=chance.choice(["locks", "locks", "table"]),
    )


@dataclass
class Frame:
    """A box, the greatest diameter and the greatest component of a velocity at the start."""

    width: int
    height: int
    diameter: int
    speed: int

    @property
    def crossing(self):
        """How many ticks the fastest take across the box."""
        return self.width // self.speed + 1


def coarse(chance):
    return Frame(chance.randint(20, 60), chance.randint(10, 60), 2 * chance.randint(1, 5), chance.choice([1, 1, 2, 3, 8]))


def tiny(chance):
    return Frame(chance.randint(4, 14), chance.randint(2, 14), 2, chance.randint(1, 6))


def fast(chance):
    """Disks that go through each other within a tick, or from side to side."""
    width = chance.randint(200, 3_000)
    return Frame(width, chance.randint(200, 3_000), 2 * chance.randint(5, 40), chance.randint(width // 40, width // 2))


def fine(chance):
    width = chance.randint(10**6, 10**9)
    return Frame(width, chance.randint(10**6, width), width // chance.randint(5, 40) // 2 * 2, chance.randint(1, 10**5))


def greatest(chance):
    """The greatest numbers that a scene may have."""
    return Frame(MOST_WIDTH, MOST_WIDTH, 2 * chance.randint(1, MOST_WIDTH // 8), MOST_SPEED)


def place_of_disk(chance, frame, size, others):
    """A place: sometimes at a side, in a corner, or so that it touches another disk, there or on its way."""
    right, top = frame.width - size // 2, frame.height - size // 2
    x, y = chance.randint(size // 2, right), chance.randint(size // 2, top)
    if chance.random() < 0.2:
        x = chance.choice([size // 2, right])
    if chance.random() < 0.2:
        y = chance.choice([size // 2, top])
    if others and chance.random() < 0.4:
        other_x, y, _, _, other = chance.choice(others)
        distance = (size + other) // 2
        x = chance.choice([x, other_x + distance])
        y += chance.choice([0, 0, distance])
    return x, y


def component(chance, speed):
    """A component of a velocity."""
    return chance.choice([0, *[chance.randint(-speed, speed)] * 5])


def has_room(frame, disk, others):
    """Whether a disk is inside, and overlaps no other."""
    x, y, _, _, size = disk
    radius = size // 2
    is_inside = radius <= x <= frame.width - radius and radius <= y <= frame.height - radius
    apart = ((x - it[0]) ** 2 + (y - it[1]) ** 2 >= ((size + it[4]) // 2) ** 2 for it in others)
    return is_inside and all(apart)


def disks_in(chance, frame, most):
    """Up to so many disks."""
    disks = []
    has_one_size = chance.random() < 0.5
    for _ in range(chance.choice([*range(most + 1), most, most])):
        size = frame.diameter if has_one_size else 2 * chance.randint(1, frame.diameter // 2)
        for _ in range(TRIES):
            velocity = component(chance, frame.speed), component(chance, frame.speed)
            disk = *place_of_disk(chance, frame, size, disks), *velocity, size
            if has_room(frame, disk, disks):
                disks.append(disk)
                break
    return tuple(disks)


def scene(chance, kinds=(coarse, coarse, tiny, fast, fine, greatest), most_disks=12):
    """A valid scene: coarse or fine, small or as great as any, also with disks that touch each other and the sides. Its
    run may pass either limit, or end at once."""
    frame = chance.choice(kinds)(chance)
    frame.diameter = min(frame.diameter, frame.width // 2 * 2, frame.height // 2 * 2)
    long = 4 * frame.crossing
    end = chance.choice([0, 1, *[chance.randint(1, long)] * 2, *[long] * 6])
    return Scene(
        frame.width,
        frame.height,
        frame.diameter,
        speed_limit=min(MOST_SPEED, frame.speed * chance.choice([1, 2, 4, 4])),
        round_limit=chance.choice([1, 2, 3, 10, 10, 64]),
        end=end,
        every=chance.choice([None, None, end // 20 + 1, chance.randint(end // 20 + 1, end + 1)]),
        disks=disks_in(chance, frame, most_disks),
    )

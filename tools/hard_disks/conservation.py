"""Checks what a report says of momentum and energy, and the virial theorem.

Disks are followed from the scene on. A collision of two disks has to leave the sum of their velocities, and may change
the sum of their squared speeds by at most 3 (|u_x| + |u_y|) + 4, with u their relative velocity before it; one with a
side turns one component of one disk round. So over the whole run momentum changes by what the sides turned alone, and
energy by at most pairs (12 speed_limit + 4). The lines at the end have to say what was found.

At each tick whose state a report has, the sum of r.v is that at the start, plus the squared speeds of all disks over the ticks
since, plus r.J of each pair, plus r.(what a side adds to v): exactly."""
from .reports import Collision, Collisions, Limit, State, Sums
from .scenes import Refused, Scene


def squared(velocity: tuple[int, int]) -> int:
    return velocity[0] ** 2 + velocity[1] ** 2


def momentum(velocities) -> tuple[int, int]:
    return tuple(map(sum, zip(*velocities))) or (0, 0)


def gain(place, before, after) -> int:
    """r.(what v changes by)"""
    return sum(r * (new - old) for r, old, new in zip(place, before, after))


def outward(rows) -> int:
    """The sum of r.v over disks, each by x, y, vx and vy."""
    return sum(x * vx + y * vy for x, y, vx, vy in rows)


def pair_change(tick: int, before, after) -> tuple[int, int]:
    """How much a collision of two disks changes the energy, and how much it may."""
    (ax, ay), (bx, by) = before
    bound = 3 * (abs(ax - bx) + abs(ay - by)) + 4
    change = sum(map(squared, after)) - sum(map(squared, before))
    if momentum(after) != momentum(before):
        raise Refused(f"tick {tick}: momentum {momentum(before)} becomes {momentum(after)}")
    if abs(change) > bound:
        raise Refused(f"tick {tick}: the energy changes by {change}, more than {bound}")
    return change, bound


def wall_change(tick: int, side: int, before, after) -> tuple[int, int]:
    """That the component across the side is turned round, and the other one kept; how momentum changes by that."""
    vx, vy = before
    if after != ((-vx, vy) if side < 2 else (vx, -vy)):
        raise Refused(f"tick {tick}: side {side} makes {after} of {before}")
    return after[0] - vx, after[1] - vy


class Kept:
    """What has been found of a run so far; `velocities` are those of all disks now."""

    def __init__(self, scene: Scene):
        self.velocities = [row[2:4] for row in scene.disks]
        self.limit, self.start, self.energy = scene.speed_limit, momentum(self.velocities), sum(map(squared, self.velocities))
        self.walls = self.pairs = self.change = self.bound = 0
        self.turned = (0, 0)
        self.starts = [(row[:2], 0) for row in scene.disks]  # where each disk's last event left it, and at which tick
        self.outward = outward(row[:4] for row in scene.disks)
        self.tick = self.flown = self.virial = self.pushed = 0

    def fly(self, tick: int) -> None:
        """Goes on to a tick."""
        self.flown += (self.energy + self.change) * (tick - self.tick)
        self.tick = tick

    def place(self, disk: int) -> tuple[int, ...]:
        place, since = self.starts[disk]
        return tuple(r + v * (self.tick - since) for r, v in zip(place, self.velocities[disk]))

    def add(self, event: Collision) -> None:
        """Checks a collision, and sets its disks on."""
        named = max(event.first, event.second)
        if named >= len(self.velocities):
            raise Refused(f"an event of disk {named}, which the scene hasn't")
        self.fly(event.tick)
        before, after = self.velocities[event.first], (event.vx1, event.vy1)
        place = self.place(event.first)
        if event.second < 0:
            self.walls += 1
            self.pushed += gain(place, before, after)
            self.turned = momentum([self.turned, wall_change(event.tick, event.side, before, after)])
        else:
            pair = before, self.velocities[event.second]
            change, bound = pair_change(event.tick, pair, (after, (event.vx2, event.vy2)))
            self.pairs, self.change, self.bound = self.pairs + 1, self.change + change, self.bound + bound
            other = self.place(event.second)
            self.virial += gain((place[0] - other[0], place[1] - other[1]), before, after)
            self.starts[event.second], self.velocities[event.second] = (other, event.tick), (event.vx2, event.vy2)
        self.starts[event.first], self.velocities[event.first] = (place, event.tick), after

    def check_state(self, state: State) -> None:
        """The virial theorem at a tick."""
        self.fly(state.tick)
        found, wanted = outward(state.rows()), self.outward + self.flown + self.virial + self.pushed
        if found != wanted:
            raise Refused(f"tick {state.tick}: the sum of r.v is {found}, and by the virial theorem it is {wanted}")

    def check(self, sums: Sums) -> None:
        """That the end of the report has what was found, and that its own numbers keep both laws."""
        if (sums.walls, sums.pairs) != (self.walls, self.pairs):
            raise Refused(f"the report counts {sums.walls} and {sums.pairs}, and has {self.walls} and {self.pairs} lines")
        if sums.momentum is None:
            return
        kept = momentum([self.start, self.turned])
        if sums.momentum != kept or kept != momentum(self.velocities):
            raise Refused(f"the report says momentum {sums.momentum}, and it is {kept}")
        if sums.energies != (self.energy, self.energy + self.change):
            raise Refused(f"the report says energy {sums.energies}, and it is {(self.energy, self.energy + self.change)}")
        most = sums.pairs * (12 * self.limit + 4)
        if abs(sums.energies[1] - sums.energies[0]) > most:
            raise Refused(f"the report says energy {sums.energies}, which differ by more than {most}")

    def said(self) -> str:
        found = f"walls {self.walls}  pairs {self.pairs}  energy {self.energy} changed by {self.change}, at most {self.bound}"
        return f"{found}  virial {self.virial}"


def check(scene: Scene, report) -> str:
    """Follows the report, and answers what was found."""
    kept, end = follow(scene, report)
    return kept.said() + end


def follow(scene: Scene, report) -> tuple[Kept, str]:
    kept, end = Kept(scene), ""
    for item in report:
        if isinstance(item, Collisions):
            for event in item.rows():
                kept.add(event)
        elif isinstance(item, Limit):
            end = f"  limit {item.name} at {item.tick}"
        elif isinstance(item, State):
            kept.check_state(item)
        elif isinstance(item, Sums):
            kept.check(item)
    return kept, end

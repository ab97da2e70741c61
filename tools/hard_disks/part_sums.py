"""What the program's format `sums` says, as measures of collisions count it.

Its sums are exact whole numbers, and totals from the run's start on: what happened between two ticks is a difference. So a
run of any number of collisions is measured by some hundred lines."""
import math

import numpy as np

from .reports import PartSums
from .sampling import Sampling
from .scenes import Refused

# At its start a run has summed up nothing.
NOTHING = PartSums(0, 0, 0, 0, 0, 0, (0, 0, 0, 0))
# A collision comes up to a tick early: in the virial disks are larger by so much of what v goes in a tick.
EARLY = 1.13


def margin_in_units(sampling: Sampling) -> int:
    """The margin as the program's word --margin takes it."""
    return round(sampling.margin)


class Between:
    """Sums over rows of equally many times between two states of the sums, from the sampling's start on."""

    def __init__(self, found: list[PartSums], sampling: Sampling):
        known = [NOTHING, *found] if sampling.start == 0 else found
        spaces = len(known) - 1
        if spaces < 2:
            raise Refused("sums at two ticks or more are wanted after the measure's start: give the scene an `every`")
        self.each = math.ceil(spaces / sampling.blocks)
        self.states = known[spaces % self.each :]
        self.edges = self.states[:: self.each]
        self.sampling = sampling

    def differences(self, values: list[int]) -> np.ndarray:
        """What was added in each row."""
        return np.array([later - earlier for earlier, later in zip(values, values[1:])], float)

    def totals(self, values: list[int]) -> np.ndarray:
        """The sums over the states of each row, the one at its end among them."""
        return np.array(values[1:], float).reshape(-1, self.each).sum(axis=1)

    def columns(self) -> dict[str, np.ndarray]:
        """The fields of `pressure.Counts`."""
        scene = self.sampling.scene
        disks, squares = self.totals([it.disks for it in self.states]), self.totals([it.squares for it in self.states])
        virial = self.differences([it.virial for it in self.edges])
        # Of several sizes the part has about as many of each as the box.
        covered = sum(math.pi / 4 * row[4] ** 2 for row in scene.disks) / len(scene.disks)
        speed = math.sqrt(squares.sum() / max(disks.sum(), 1) / 2)
        return {
            "virial": virial,
            "touching": virial / (1 + EARLY * speed / scene.sigma),
            "collisions": self.differences([it.pairs for it in self.edges]),
            "wall": self.differences([sum(it.taken) for it in self.edges]),
            "disks": disks,
            "covered": covered * disks,
            "squared": squares,
            "samples": np.full(len(disks), float(self.each)),
            "time": self.differences([it.tick for it in self.edges]),
        }

    def middles(self) -> list[float]:
        """The middle of each row, in ticks."""
        return [(earlier.tick + later.tick) / 2 for earlier, later in zip(self.edges, self.edges[1:])]

    def notes(self) -> list[str]:
        found = [f"by sums of the program with --margin {margin_in_units(self.sampling)}"]
        if not self.sampling.scene.has_one_size:
            found.append("CAUTION: phi inside is by the sizes of the whole box, as sums don't tell which disks are inside")
        return found

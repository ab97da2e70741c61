"""What is left of a scene after a state in its report: what the program's mode cut says too, but without a second run.

A state has the velocities from before the events of its tick, and so has the rest of a cut at that tick."""
from dataclasses import replace
from typing import TextIO

from .reports import BreaksOff, State, read_report
from .scenes import Refused, Scene


def whole_states(scene: Scene, report: TextIO):
    """The states of a report, which may break off within one; that one is left out."""
    count, other = len(scene.disks), None
    try:
        for item in read_report(report):
            if other is not None:
                raise Refused(f"{other} disks in a state, and {count} in the scene: is it the report of this scene?")
            if isinstance(item, State):
                found = len(item.numbers) // 5
                if found == count and item.tick <= scene.end:
                    yield item
                else:
                    other = found
    except BreaksOff:
        pass


def rest(scene: Scene, report: TextIO, tick: int | None = None) -> Scene:
    """The scene that goes on from the state of a tick, or from the last whole one; it keeps the scene's `every`."""
    chosen = None
    for state in whole_states(scene, report):
        if tick is None or state.tick == tick:
            chosen = state
    if chosen is None:
        raise Refused(f"the report has no whole state{'' if tick is None else f' of tick {tick}'}")
    disks = tuple((*row, disk[4]) for row, disk in zip(chosen.rows(), scene.disks))
    return replace(scene, end=scene.end - chosen.tick, disks=disks)

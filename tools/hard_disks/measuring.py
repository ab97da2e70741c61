"""Measures of runs: several at once, in one pass over a report.

A measure is shown what the report says, adds it up by blocks of time, and makes a table of it in the end. It keeps no more
of the report than it compares, so a report may be as long as it likes."""
import re
from typing import Iterable

import numpy as np

from .columns import column
from .errors import Errors, spread_error
from .heat import Heat
from .motion import Followed
from .order import Order
from .reports import PartSums
from .runs import Frame, Run, Sample
from .sampling import OfErrors, Sampling, Stated, Table
from .scenes import Refused


NUMBER = re.compile(r"\d[\d.e+-]*")


class Measure:
    """A measure of one run; each kind of measure is a class of its own."""

    # Whether it looks at collisions: one that doesn't takes a report without them too.
    needs_collisions = False

    def __init__(self, sampling: Sampling):
        self.sampling, self.scene, self.errors = sampling, sampling.scene, Errors(sampling)

    def sample_ticks(self) -> Iterable[int]:
        """The ticks at which it wants to see all disks between states; only one that needs collisions may want some."""
        return ()

    def add_state(self, frame: Frame) -> None:
        """A state from the sampling's start on: the scene's own if that is 0, those of the report, and the end."""

    def add_sample(self, sample: Sample) -> None:
        """All disks at a tick that some measure of the pass wants to see."""

    def add_collisions(self, found: Followed) -> None:
        """Collisions in the report's order, those before the sampling's start too."""

    def add_sums(self, sums: PartSums) -> None:
        """The sums up to a tick, if that is all that the report has."""
        raise Refused("the report has sums alone, and by these there are only pressure and rate: ask for --format states or lines")

    def notes(self) -> list[str]:
        """What every table says of the part of the run, and of its errors, which have to be made before."""
        return [*map(OfErrors, self.errors.notes()), *self.sampling.notes()]

    def conclusions(self, table: Table) -> list[str]:
        """Notes that follow from a table's numbers and their errors, of one run or of several together."""
        return []

    def table(self) -> Table:
        """What was found."""
        raise NotImplementedError


def watch(run: Run, measures: list[Measure]) -> None:
    """Shows measures what the report of a run says, in one pass."""
    colliding = [it for it in measures if it.needs_collisions]
    samples = sorted({tick for it in measures for tick in it.sample_ticks()})
    by_samples, by_states = (shared_heat([it for it in measures if it.needs_collisions is kind]) for kind in (True, False))
    share_order([*by_samples, *by_states])
    has_states = False
    for item in run.followed(samples) if colliding else run.frames():
        if isinstance(item, Followed):
            for it in colliding:
                it.add_collisions(item)
        elif isinstance(item, Sample):
            for heat in by_samples:
                heat.add(item.tick, item.rows)
            for it in colliding:
                it.add_sample(item)
        elif isinstance(item, PartSums):
            for heat in by_samples:
                heat.add_inside(item.tick, item.disks, float(item.squares))
            for it in measures:
                it.add_sums(item)
        else:
            for heat in by_states:
                heat.add(item.tick, item.rows)
            for it in measures:
                if item.tick >= it.sampling.start:
                    has_states = True
                    it.add_state(item)
    if not has_states and len(colliding) < len(measures):
        raise Refused("the report has no state: it is a summary, or ends before the measure begins")


def shared_heat(measures: list[Measure]) -> list[Heat]:
    """Has measures of one sampling keep the heat of the inside together; all of these records."""
    found: dict[int, Heat] = {}
    for it in measures:
        it.errors.heat = found.setdefault(id(it.sampling), it.errors.heat)
    return list(found.values())


def share_order(heats: list[Heat]) -> None:
    """Has them say the same of what order remembers."""
    found: dict[int, Order] = {}
    for it in heats:
        it.order = found.setdefault(id(it.sampling), it.order)


def measured(run: Run, measure: Measure) -> Table:
    """The table of one measure of a run."""
    watch(run, [measure])
    return measure.table()


def together(runs: list[Measure]) -> Table:
    """The table of one measure of a run, or of several runs that differ by their seeds alone: then the mean over the runs,
    with the errors that follow from the spread over them."""
    tables = [it.table() for it in runs]
    if len(tables) == 1:
        return tables[0]
    first, count = tables[0], min(len(it.rows) for it in tables)
    if any(it.columns != first.columns for it in tables):
        raise Refused("the tables of these runs have different columns: their scenes differ by more than a seed")
    # An axis for the runs, one for rows, one for columns.
    numbers = np.array([it.rows[:count] for it in tables], float)
    means, errors = numbers.mean(axis=0), spread_error(numbers)
    for place, it in enumerate(map(column, first.columns)):
        if it.error_of and not it.is_given_phi:
            # What can't be otherwise has no error, by one run or by several.
            is_sure = (numbers[:, :, place] == 0).all(axis=0)
            means[:, place] = np.where(is_sure, 0, errors[:, first.columns.index(it.error_of)])
        if it.is_given_phi:
            # By the runs that know it.
            known = np.isfinite(numbers[:, :, place])
            squares = np.where(known, numbers[:, :, place], 0) ** 2
            with np.errstate(invalid="ignore"):
                means[:, place] = np.sqrt(squares.sum(axis=0) / known.sum(axis=0) / len(tables))
    found = Table(first.columns, means.tolist())
    own = [[note for note in it.notes if note not in run.conclusions(it)] for run, it in zip(runs, tables)]
    notes = [f"{len(tables)} runs: means over them, and standard errors by the spread over them"]
    found.notes = [*notes, *runs[0].conclusions(found), *notes_together(own)]
    return found


def notes_together(notes: list[list[str | Stated]]) -> list[str | Stated]:
    """The notes that all runs have, and numbers as means over the runs; not those about errors of one run."""
    found = []
    for note in notes[0]:
        if isinstance(note, Stated):
            alike = [it for own in notes for it in own if isinstance(it, Stated) and it.name == note.name]
            values = [it.value for it in alike]
            # Seeds differ in the last digits of a time; what is said is that of the first.
            after = note.after if len({NUMBER.sub("", it.after) for it in alike}) == 1 else ""
            found.append(Stated(note.name, float(np.mean(values)), float(spread_error(values)), after))
        elif all(note in own for own in notes) and not isinstance(note, OfErrors):
            found.append(note)
    return found

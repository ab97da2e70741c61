"""Trying the wrong bodies of one crate, many in one check."""

import re

from .edits import Bad
from .reach import Reach, reached
from .verdicts import REFUSED, UNTRIED, Said, verdict_alone

PLACE = re.compile(r"(src/[\w/]+\.rt):(\d+)")


def next_batch(left, crate):
    """The edits that the next check is of, the first and those that fit to all before, and the texts with them."""
    batch, texts = [], {}
    for edit in left:
        if all(edit.fits(other) for other in batch):
            changed = dict(texts)
            try:
                edit.apply(changed, crate)
            except Bad:
                # (one before it has made its text stand twice)
                continue
            batch.append(edit)
            texts = changed
    return batch, texts


class Rounds:
    """The checks of a crate with its wrong bodies, one after the other over the same kept work."""

    def __init__(self, rooms, name):
        self.rooms, self.name, self.work, self.proved = rooms, name, rooms.begin(name), None

    def is_proved(self):
        """Whether the crate without any edit is proved over the kept work, so that a refusal is an edit's."""
        if self.proved is None and self.rooms.is_proved_by_gate(self.name):
            self.proved = True
        if self.proved is None:
            self.proved = self.rooms.check(self.name, {}, self.work)[0] == 0
        return self.proved

    def tries(self, edits):
        """Yields each edit with its verdict and the line that says why."""
        left, reach = list(edits), None
        for edit in left:
            if not edit.is_body:
                reach = reach or Reach(self.rooms.path(self.name))
                edit.places, edit.files = reached(self.rooms.path(self.name), reach, edit.pairs)
        while left:
            left.sort(key=lambda edit: edit.is_alone)
            batch, texts = next_batch(left, self.rooms.path(self.name))
            batch[0].is_alone |= len(batch) == 1
            status, lines = self.check(batch, texts)
            found = self.judged(batch, lines) if batch[0].places else self.judged_alone(batch[0], status, lines)
            for edit, *verdict in found:
                left.remove(edit)
                yield edit, *verdict

    def check(self, batch, texts):
        """Checks the functions that these edits change or reach, or the whole crate where that can't be asked for."""
        names = {place.named() for edit in batch for place in edit.places}
        if names and None not in names:
            status, lines = self.rooms.check(self.name, texts, self.work, [word for name in sorted(names) for word in ("--only", name)])
            if status != 2:
                return status, lines
        return self.rooms.check(self.name, texts, self.work)

    def judged_alone(self, edit, status, lines):
        """What is refused anywhere counts if the crate is proved without the edit."""
        if status == 1 and not self.is_proved():
            return [(edit, UNTRIED, "the crate isn't proved without it")]
        return [(edit, *verdict_alone(edit, status, lines, self.rooms.rt))]

    def judged(self, batch, lines):
        """Yields the edits of which a check of several says that a goal of their own doesn't hold. It says nothing of the
        others: those are tried again, without what they were blocked by, or alone."""
        said, known = Said(lines), set()
        stray = [path for path in said.unproved() if not any(place.is_of(path) for edit in batch for place in edit.places)]
        if stray and not batch[0].is_body:
            # They reach farther than was thought.
            for edit in batch:
                edit.is_alone = True
                edit.set_apart()
            return
        if stray and not self.is_proved():
            yield from ((edit, UNTRIED, "the crate isn't proved without it") for edit in batch)
            return
        for edit in batch if said.is_verdict() else ():
            why = said.refusal_of(edit)
            if why:
                known.add(edit)
                yield edit, REFUSED, why
        self.set_apart([edit for edit in batch if edit not in known], said, bool(known))

    def set_apart(self, unknown, said, is_some_known):
        """Notes of edits that nothing is known of how they are tried next."""
        named = [(it[1], int(it[2])) for line in said.lines if "error" in line for it in PLACE.finditer(line)]
        at_fault = [edit for edit in unknown if any(place.is_at(*it) for it in named for place in edit.places)]
        for edit in unknown:
            blockers = {path for place in edit.places for path in said.blockers(place)}
            edit.blocked |= blockers
            if not edit.is_body or not is_some_known and not at_fault or edit in at_fault or said.is_verdict() and not blockers:
                edit.set_apart()

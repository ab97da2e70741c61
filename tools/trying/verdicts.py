"""What a check of a crate with wrong bodies says of each of them."""

import re

REFUSED, BY_NAME, PASSED, BAD, UNTRIED = "refused", "REFUSED FOR A NAME ALONE", "NOT REFUSED", "BAD EDIT", "NOT TRIED"

ANSWER = re.compile(r"(?:\./)?proofs/(\S+)\.antt:\d+:\d+: error: (.*)")
GOAL = re.compile(r"note: (?:\./)?(src/\S+?):(\d+):\d+: (it is not proved that .*)")
FUNCTION = re.compile(r"(?:fn|impl|struct|enum|trait|cycle) ([\w:+]+): (.*)")
UNPROVED = re.compile(r"not proved|no proof|could not tell")
# What is said of a function that isn't proved for what it is itself: by its answers, or by the search that finds them.
OWN = ("not proved", "no proof: expected answers")
# What tells no more than that a name is gone, or that something before it was refused.
NAMES = re.compile(r"has no field|is not in scope|has no `|was not admitted|which (?:was|were) rejected, (?:was|were) not checked")
BORROWS = "the borrow checker"


class Said:
    """The lines of a check that ended with a verdict, by the functions that they tell of."""

    def __init__(self, lines):
        self.lines = lines
        self.answers = [(f"proofs/{it[1]}.antt", it[2], it[0]) for it in map(ANSWER.match, lines) if it]
        self.goals = [(it[1], int(it[2]), it[0]) for it in map(GOAL.match, lines) if it]
        self.functions = {tuple(it[1].split("::")[1:]): it[2] for it in map(FUNCTION.match, lines) if it}

    def is_verdict(self):
        return any(line.startswith(("logic=not-proved", "logic=proved", "only=")) for line in self.lines[-2:])

    def of(self, place):
        """What is said of a function: whether it is proved, and more."""
        return [said for path, said in self.functions.items() if place.is_of(path)]

    def refusal(self, place):
        """The line that says that a goal of a function doesn't hold, if there is one and the function isn't proved."""
        if not any(said.startswith(OWN) for said in self.of(place)):
            return None
        own = [whole for file, error, whole in self.answers if place.is_of(tuple(file.split("/")[1:-1])) and not NAMES.search(error)]
        return next(iter(own + [whole for file, line, whole in self.goals if place.is_at(file, line)]), None)

    def refusal_of(self, edit):
        """The line that says that a goal doesn't hold of what an edit changes or reaches, if there is one."""
        own = next((line for line in map(self.refusal, edit.places) if line), None)
        return own or next((whole for file, error, whole in self.answers if file in edit.files and not NAMES.search(error)), None)

    def any_refusal(self):
        """The line that says that some goal or lemma doesn't hold, if there is one."""
        return next(iter([whole for _, error, whole in self.answers if not NAMES.search(error)] + [it[-1] for it in self.goals]), None)

    def unproved(self):
        """The functions that aren't proved for what they themselves are."""
        return [path for path, said in self.functions.items() if said.startswith(OWN)]

    def blockers(self, place):
        """The functions that aren't proved, for whose sake nothing is known of this one, by what is said of it and of those that
        it calls."""
        found, left = set(), [path for path in self.functions if place.is_of(path)]
        while left:
            for name in re.findall(r"`([\w:]+)`", self.functions.get(left.pop(), "")):
                path = tuple(name.split("::")[1:])
                if path not in found:
                    found.add(path)
                    left.append(path)
        return found


def verdict_alone(edit, status, lines, rt):
    """What a check of one edit alone came to, and the line that says so."""
    said = Said(lines)
    unread = next((line for line in lines if rt.unread(line, edit.texts)), None)
    errors = [line for line in lines if "error" in line]
    if status == 0:
        return PASSED, "the crate is still proved with it"
    if status == 1 and unread:
        return BAD, unread
    if rt.rtlib.STALE.search("\n".join(lines)):
        return UNTRIED, "the kept work of a library couldn't be used"
    if status == 1 and said.is_verdict():
        refusal = said.any_refusal()
        borrow = next((line for line in lines if BORROWS in line and UNPROVED.search(line)), None)
        return (REFUSED, refusal) if refusal else (BAD, borrow) if borrow else (BY_NAME, next(iter(errors), ""))
    limit = next((line for line in lines if rt.LIMITS.search(line)), None)
    if status == 3 and limit:
        return REFUSED, f"by a limit of the prover alone: {limit}"
    if status == 1 and errors:
        return BAD, errors[0]
    return UNTRIED, f"its check ended with status {status}: {next(iter(errors), lines[0])}"

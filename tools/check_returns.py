#!/usr/bin/env python3
"""Whether only those functions may wait that are named here: the calls of the board that shows progress, those that reach
them, and the turns under locks that the program doesn't make. Every other function of the program has neither the bound
`Wait` nor `Abort`, so that its contract says that it returns. Crates of tests may have them.

    python3 tools/check_returns.py [--proved] [FILE]

The bounds of `main` are written nowhere: with --proved the program's crate is checked over the libraries that `rt ci` proved,
and what that check says of `main` is read. FILE is what `rt ci` printed: it counts the functions of a crate that may wait. A
crate that `rt ci` took over from an earlier run isn't counted there."""
import re
import sys
import tempfile
from pathlib import Path

TOP = Path(__file__).resolve().parent.parent
BOUND = re.compile(r"\b(Wait|Abort)\b")
COMMENT = re.compile(r"//.*")
IMPORT = re.compile(r"\s*use\b")
NAMED = re.compile(r"\b(?:fn|struct|enum|trait|type) (\w+)|^impl\b(?:.* for (\w+))?")
CHECK = re.compile(r"^== (\w+)$")
VERDICT = re.compile(r"^logic=\w+ (.*)")

# The functions and types with the bound `Wait`, by crate.
WAITING = {
    "live_progress": {"glass", "publish", "put", "look", "retire", "check", "Watched"},
    "region_locks": {"hold", "turn", "meet", "hold_both"},
    "terminal_line": {"show"},
    "program_modes": {
        *("audit", "audit_by", "compare_run", "write_unwatched", "show_audit"),
        *("show", "show_made", "write_run", "write_report", "report_run"),
        *("write_samples", "sample_run"),
    },
    "hard_disks": {
        *("top", "top_watched", "with_settings", "top_gathered", "gather"),
        *("run_process", "run_process_over", "run_streams", "run_over", "run_shown"),
    },
}

# How many functions have it, if the check counts otherwise: `Watched` is a listener, of two methods, and `main` is handed
# a runtime that has each bound.
COUNTS = {"live_progress": 8, "hard_disks_program": 1}

# The crate of the function main.
PROGRAM = "hard_disks_program"

# The bounds that `main` may need.
OF_MAIN = {"Threads", "Wait"}


def crates():
    """The names of all crates, but for those of tests."""
    for line in (TOP / "crates.txt").read_text(encoding="utf-8").splitlines():
        name = line.partition(":")[0]
        if not line.startswith("#") and not name.endswith("_tests") and name != "test_scenes":
            yield name


def bounds_in(text):
    """The bounds `Wait` and `Abort` of a source, each with its line and what has it."""
    name = None
    for number, line in enumerate(text.splitlines(), 1):
        code = COMMENT.sub("", line)
        if IMPORT.match(code):
            continue
        if found := NAMED.search(code):
            name = found[1] or found[2]
        yield from ((number, name, it) for it in BOUND.findall(code))


def faults_of_sources():
    """What has a bound in the sources and isn't named above, and what is named above and has none."""
    for crate in crates():
        left = set(WAITING.get(crate, ()))
        for path in sorted((TOP / "crates" / crate / "src").rglob("*.rt")):
            for number, name, bound in bounds_in(path.read_text(encoding="utf-8")):
                left.discard(name)
                if bound == "Abort" or name not in WAITING.get(crate, ()):
                    yield f"{path.relative_to(TOP)}:{number}: {name} has the bound {bound}"
        yield from (f"crates/{crate}: {name} has no bound Wait" for name in sorted(left))


def verdicts_in(text):
    """The crates that `rt ci` proved, each with the words of its check's last line."""
    crate = None
    for line in text.splitlines():
        if found := CHECK.match(line):
            crate = found[1]
        elif line.startswith("== "):
            crate = None
        elif crate and (found := VERDICT.match(line)):
            yield crate, dict(it.partition("=")[::2] for it in found[1].split())


def faults_of_checks(text):
    """Where the checks count other functions that may wait than are named above, or `main` needs another bound."""
    known = set(crates())
    for crate, said in verdicts_in(text):
        count = COUNTS.get(crate, len(WAITING.get(crate, ())))
        if crate in known and int(said.get("may-wait", 0)) != count:
            yield f"crates/{crate}: {said.get('may-wait', 0)} functions may wait, and not {count}"
        of_main = {it for it in said.get("main", "").split("+") if it}
        if crate in known and not of_main <= OF_MAIN:
            yield f"crates/{crate}: main needs {said['main']}"


def check_of_program():
    """What a check of the program's crate prints, over the libraries that `rt ci` proved."""
    from trying.rooms import Rooms

    with tempfile.TemporaryDirectory(prefix="check_returns-") as folder:
        rooms = Rooms(str(TOP), folder)
        if PROGRAM not in rooms.take_libraries([PROGRAM]):
            return ""
        return "\n".join([f"== {PROGRAM}", *rooms.check(PROGRAM, {}, rooms.begin(PROGRAM))[1]])


def faults_of_program(text):
    """Whether a check says the bounds of `main`; what they may be is looked at with the others."""
    if not any(crate == PROGRAM and "main" in said for crate, said in verdicts_in(text)):
        yield f"crates/{PROGRAM}: no check says what main needs"
    yield from faults_of_checks(text)


def main(words):
    found = [*faults_of_sources()]
    if "--proved" in words:
        found += faults_of_program(check_of_program())
    for file in (it for it in words if it != "--proved"):
        found += faults_of_checks(Path(file).read_text(encoding="utf-8", errors="replace"))
    for it in found:
        print(it)
    if not found:
        print("only the functions of live progress, and turns under locks that the program doesn't make, may wait")
    return 1 if found else 0


if __name__ == "__main__":
    sys.exit(main(sys.argv[1:]))

"""Where the parts of the repository are that tests look at, and which program they run.

Whoever imports this can import the package hard_disks and the scripts of tools/, wherever a test was started."""
import sys
from pathlib import Path

TESTS = Path(__file__).resolve().parent
TOOLS, TOP = TESTS.parent, TESTS.parents[1]
SCENES = TOP / "scenes"
sys.path.insert(0, str(TOOLS))


def program_or_exit(named=None):
    """The path of the program: as the package finds it, or that of a word. Without one a script of tests ends."""
    from hard_disks.program import find_program
    from hard_disks.scenes import Refused

    try:
        return find_program(named)
    except Refused as why:
        sys.exit(str(why))


def program_of_words():
    """The same where the script's first word may name it; that word is taken away."""
    return program_or_exit(sys.argv.pop(1) if len(sys.argv) > 1 and not sys.argv[1].startswith("-") else None)

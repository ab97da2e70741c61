"""Where the program is that runs scenes."""
import os
from pathlib import Path

from .scenes import Refused

# Where it lies when it is built: README.md says how.
BUILT = Path(__file__).resolve().parents[2] / "crates" / "hard_disks_program" / "out" / "hard_disks_program"


def find_program(named: str | None = None) -> str:
    """The path of the program: the one named, that of the environment variable HARD_DISKS, or the one built here."""
    path = named or os.environ.get("HARD_DISKS") or BUILT
    if not os.access(path, os.X_OK):
        raise Refused(f"there is no program {path}; the script hard_disks builds one, and --program names another")
    return str(path)

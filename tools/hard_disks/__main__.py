"""Runs a command of the package, by a Python that has numpy where this one hasn't."""
import importlib.util
import os
import shutil
import subprocess
import sys
from pathlib import Path

if not __package__:
    # Run as a folder: what it imports lies beside it.
    sys.path[0] = str(Path(__file__).resolve().parent.parent)

# What a Python has to have.
WANTED = "import sys, numpy; sys.exit(sys.version_info < (3, 11))"


def other_python():
    """A Python with numpy: Debian's packages are for that at /usr/bin."""
    for path in ["/usr/bin/python3", shutil.which("python3"), "/usr/local/bin/python3"]:
        if path and path != sys.executable and os.access(path, os.X_OK):
            if subprocess.run([path, "-c", WANTED], capture_output=True).returncode == 0:
                return path
    return None


def lacks():
    """What this Python lacks; nothing if all is there."""
    if sys.version_info < (3, 11):
        return "is older than 3.11"
    return "" if importlib.util.find_spec("numpy") else "has no numpy"


def main():
    if lacks():
        path = other_python()
        if path:
            if sys.stderr is not None:
                print(f"hard_disks: run by {path}, as {sys.executable} {lacks()}", file=sys.stderr)
            os.execv(path, [path, str(Path(__file__).resolve().parent), *sys.argv[1:]])
        if sys.version_info < (3, 11):
            sys.exit("hard_disks: there is no Python from 3.11 on here; tools/setup says what to install")
    from hard_disks.commands import main as run

    run()


if __name__ == "__main__":
    main()

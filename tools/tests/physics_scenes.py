"""Scenes, reports and fluids that the tests of the package hard_disks share, and how these tests are run.

Without numpy this module begins anew by a Python that has it, or says that all was skipped."""
import io
import os
import subprocess
import sys
import unittest
from functools import lru_cache

from places import SCENES

from hard_disks.__main__ import other_python
from hard_disks.program import find_program
from hard_disks.scene_text import read_scene
from hard_disks.scenes import Refused, Scene

try:
    import numpy as np
except ImportError:
    if path := other_python():
        os.execv(path, [path, *sys.argv])
    print(f"{os.path.basename(sys.argv[0])}: all tests were skipped: no Python from 3.11 on with numpy is here; see tools/setup")
    sys.exit()

from hard_disks.making import make
from hard_disks.runs import Run

NAMES = sorted(it.stem for it in SCENES.glob("*.toml"))


def scene_of(disks, width=1_000, height=1_000, diameter=100, end=100, every=None):
    """A scene of rows x, y, vx, vy, maybe size."""
    rows = tuple(tuple(row) if len(row) == 5 else (*row, diameter) for row in disks)
    return Scene(width, height, diameter, 1_000, 64, end, every, rows)


def end_of(scene, events=()):
    """A report of a scene, whose collisions are these lines, and whose disks end where they began."""
    walls = sum(" wall " in it for it in events)
    disks = [f"disk {i} {x} {y} {vx} {vy}" for i, (x, y, vx, vy, _) in enumerate(scene.disks)]
    sums = [f"done {scene.end}", f"walls {walls}", f"pairs {len(events) - walls}", "momentum 0 0", "energy 0 0"]
    return "\n".join([*events, *sums, *disks]) + "\n"


def disks_at(scene, tick):
    """The lines of the disks in a report at a tick, if nothing happens before."""
    rows = enumerate(scene.disks)
    return "".join(f"disk {i} {x + vx * tick} {y + vy * tick} {vx} {vy}\n" for i, (x, y, vx, vy, _) in rows)


def run_of(name):
    return Run(read_scene(SCENES / f"{name}.toml"), SCENES / f"{name}.report")


@lru_cache(maxsize=None)
def fluid(count, phi, time, every, sizes=((1.0, 1.0),), seed=1):
    """A made scene and the text of its report, by the program."""
    scene = make(count, phi, sizes=sizes, seed=seed, time=time, every=every)
    return scene, report_of(scene)


def report_of(scene, *words):
    """The text of a scene's report, by the program with these words; without one the test is skipped."""
    try:
        program = find_program()
    except Refused as why:
        raise unittest.SkipTest(str(why)) from why
    return subprocess.run([program, *words], input=scene.text(), capture_output=True, text=True, check=True).stdout


def column(table, name):
    return np.array([row[table.columns.index(name)] for row in table.rows], float)


def value(table, name):
    return column(table, name)[0]


def noted(table, word):
    """The number and the error of a note `word = number +/- error`."""
    words = next(it for it in map(str, table.notes) if f"{word} = " in it).split(f"{word} = ")[1].split()
    return float(words[0]), float(words[2].rstrip(",;"))


def needs(module):
    try:
        __import__(module)
    except ImportError:
        return unittest.skip(f"there is no {module}")
    return lambda test: test


def read_text(report, scene):
    """The run of a report that is a text."""
    return Run(scene, io.StringIO(report))


def main():
    """Runs the tests of a script, and says which were skipped, and why."""
    result = unittest.main(exit=False).result
    for test, why in result.skipped:
        print(f"skipped {test}: {why}")
    print(f"{len(result.skipped)} of {result.testsRun} tests were skipped")
    sys.exit(not result.wasSuccessful())

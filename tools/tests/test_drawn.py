#!/usr/bin/env python3
"""Runs drawn scenes by drawn settings, up to the greatest: each writes the report of the plain engine, and none goes on
for nothing.

    python3 tools/tests/test_drawn.py [--scenes N] [--seconds S] [--seed K] [PROGRAM]

PROGRAM is the one that the variable HARD_DISKS names, or the built one, where none is named. A run that takes longer than S seconds, by its processor time, is told."""
import argparse
import random
import resource
import sys

import drawn
import test_program as program
from places import program_or_exit


def processor_time():
    """How many seconds of processors the runs that have ended took."""
    used = resource.getrusage(resource.RUSAGE_CHILDREN)
    return used.ru_utime + used.ru_stime


def complaint(chance, scene, most):
    """What is wrong with a run of the scene by drawn settings; None where nothing is."""
    words = drawn.settings(chance).words()
    want = program.output("--mode plain", scene)
    start = processor_time()
    found = program.output(words, scene)
    took = processor_time() - start
    if found != want:
        return f"{words}: another report"
    if took > most:
        return f"{words}: {took:.2f} seconds"
    return None


def main():
    parser = argparse.ArgumentParser(description=__doc__, formatter_class=argparse.RawDescriptionHelpFormatter)
    parser.add_argument("--scenes", type=int, default=2_000, metavar="N")
    parser.add_argument("--seconds", type=float, default=1.0, metavar="S")
    parser.add_argument("--seed", type=int, default=1, metavar="K")
    parser.add_argument("program", nargs="?", metavar="PROGRAM")
    asked = parser.parse_args()
    program.PROGRAM = program_or_exit(asked.program)
    chance = random.Random(asked.seed)
    wrong = 0
    for number in range(asked.scenes):
        scene = drawn.scene(chance).text()
        said = complaint(chance, scene, asked.seconds)
        if said is not None:
            wrong += 1
            print(f"scene {number}, {said}\n{scene}")
    print(f"{asked.scenes} scenes, {wrong} wrong or slow")
    return 1 if wrong else 0


if __name__ == "__main__":
    sys.exit(main())

#!/usr/bin/env python3
"""Checks the reports of drawn scenes, as `python3 -m hard_disks check` checks one, and the program's sums of their runs: these
have to say the same virial, and those of a run's two parts have to add up to those of the run.

    python3 tools/tests/check_drawn.py [--scenes N] [PROGRAM]

PROGRAM is the one that the variable HARD_DISKS names, or the built one, where none is named."""
import argparse
import io
import random
import subprocess
import sys
from typing import Iterator

from places import program_or_exit

from hard_disks.conservation import Kept, follow
from hard_disks.reports import PartSums, read_report
from hard_disks.scene_text import parse_scene
from hard_disks.scenes import Refused, Scene


def draw(seed: int) -> str:
    """The text of a scene: some disks on a lattice, in coarse or fine units, of one size or of several."""
    chance = random.Random(seed)
    unit, speed = chance.choice([(10, 4), (1_000, 40), (1_000_000, 2_000)])
    across, up = chance.randint(1, 7), chance.randint(1, 7)
    diameter, gap = 2 * unit, 2 * unit + chance.randint(unit // 5, 2 * unit)
    limit = chance.choice([2, 10, 10, 10]) * speed
    rows = []
    for i in range(across * up):
        x, y = gap * (i % across) + gap // 2 + 1, gap * (i // across) + gap // 2 + 1
        vx, vy = chance.randint(-speed, speed), chance.randint(-speed, speed)
        size = f", {2 * chance.randint(1, unit)}" if chance.random() < 0.3 else ""
        rows.append(f"  [{x}, {y}, {vx}, {vy}{size}],")
    numbers = f"width = {gap * across + 2}\nheight = {gap * up + 2}\ndiameter = {diameter}\nspeed_limit = {limit}\n"
    return numbers + f"round_limit = 64\nend = {40 * unit // speed}\ndisks = [\n" + "\n".join(rows) + "\n]\n"


class Program:
    """The program, as it answers texts of scenes."""

    def __init__(self, path: str):
        self.path = path

    def output(self, text: str, *words: str) -> tuple[int, str]:
        ran = subprocess.run([self.path, *words], input=text, capture_output=True, text=True)
        if ran.returncode not in (0, 4, 5):
            raise Refused(f"the program ends with {ran.returncode}: {ran.stdout}{ran.stderr}")
        return ran.returncode, ran.stdout

    def sums(self, text: str, margin: int) -> tuple[int, ...]:
        """The numbers of all collisions of a run: pairs, virial, walls, and what each side took."""
        _, out = self.output(text, "--format", "sums", "--margin", str(margin))
        *_, last = (it for it in read_report(io.StringIO(out)) if isinstance(it, PartSums))
        return last.pairs, last.virial, last.walls, *last.taken


def check_sums(text: str, scene: Scene, kept: Kept, program: Program) -> None:
    """That the program's sums of a run that came to its end are those of its report, and add up where it is cut."""
    at = scene.end // 2
    first, rest = text.replace(f"end = {scene.end}\n", f"end = {at}\n"), program.output(text, "--mode", "cut", "--at", str(at))[1]
    for margin in (0, min(scene.width, scene.height) // 4):
        whole = program.sums(text, margin)
        if margin == 0 and whole[:3] != (kept.pairs, kept.virial, kept.walls):
            raise Refused(f"the sums say {whole[:3]}, and pairs, virial and walls are {(kept.pairs, kept.virial, kept.walls)}")
        parts = tuple(map(sum, zip(program.sums(first, margin), program.sums(rest, margin))))
        if parts != whole:
            raise Refused(f"cut at tick {at}, with the margin {margin}, the sums {whole} are in parts {parts}")


def check_drawn(count: int, path: str) -> Iterator[str]:
    """Runs drawn scenes by a program, and yields what is found of each report."""
    program = Program(path)
    for seed in range(count):
        text = draw(seed)
        scene = parse_scene(text)
        try:
            status, out = program.output(text, "--mode", "run")
            kept, end = follow(scene, read_report(io.StringIO(out)))
            if status == 0:
                check_sums(text, scene, kept, program)
        except Refused as why:
            raise Refused(f"scene {seed}: {why}") from why
        yield f"scene {seed}: {kept.said()}{end}"


def main():
    parser = argparse.ArgumentParser(description=__doc__, formatter_class=argparse.RawDescriptionHelpFormatter)
    parser.add_argument("--scenes", type=int, default=20, metavar="N")
    parser.add_argument("program", nargs="?", metavar="PROGRAM")
    asked = parser.parse_args()
    try:
        for found in check_drawn(asked.scenes, program_or_exit(asked.program)):
            print(found)
    except Refused as why:
        sys.exit(str(why))


if __name__ == "__main__":
    main()

#!/usr/bin/env python3
"""Compares the built program with a second simulator, written from docs/SPECIFICATION.md: drawn scenes, and those of
scenes/ that are small enough for it.

    python3 tools/tests/test_specification.py [--scenes N] [--seed K] [PROGRAM]

Scenes are drawn by the seeds from K on, so `--scenes 1 --seed I` draws one again. PROGRAM is the one that the variable
HARD_DISKS names, or the built one, where none is named."""
import argparse
import functools
import itertools
import random
import re
import sys
import unittest
from dataclasses import replace

import drawn
import second_simulator as second
import test_program as program
from places import SCENES, TOP, program_or_exit

from hard_disks.scene_text import read_scene

SPECIFICATION = TOP / "docs" / "SPECIFICATION.md"
# Above so many disks the second simulator takes too long.
FEW = 40
# So many has a scene at most on which laws are tried, since each takes some more runs.
FEWER = 6
ASKED = argparse.Namespace(scenes=120, seed=1)


@functools.cache
def drawn_scenes():
    """Drawn scenes, each with a title that names its seed and shows its text, drawn settings, a tick, and its run."""
    scenes = []
    for seed in range(ASKED.seed, ASKED.seed + ASKED.scenes):
        chance = random.Random(seed)
        scene = drawn.scene(chance)
        title = f"seed {seed}\n{scene.text()}"
        scenes.append((title, drawn.settings(chance), chance.randint(0, scene.end), scene, second.run(scene)))
    return scenes


@functools.cache
def small_scenes():
    """Drawn scenes of few disks, each with a title, more chance, and its run."""
    scenes = []
    for seed in range(ASKED.seed, ASKED.seed + ASKED.scenes):
        chance = random.Random(seed)
        scene = drawn.scene(chance, most_disks=FEWER)
        scenes.append((f"seed {seed}\n{scene.text()}", chance, scene, second.run(scene)))
    return scenes


def disks_of(event):
    """The numbers of the disks of an event."""
    return {event.first} if event.kind == second.WALL else {event.first, event.second}


def events_and_rivals(scene, run):
    """Each event of a run, and the one that failed a limit, with the other candidates of its tick, round and kind."""
    states = [second.records_at_start(scene), *(after for _, after in run.events)]
    events = [event for event, _ in run.events] + ([run.failed] if run.failed else [])
    for event, state in zip(events, states):
        yield event, [it for it in second.candidates(scene, state) if it[:3] == event[:3] and it != event]


def none_shares_a_disk(scene, run):
    """Whether no rival of an event has one of its disks."""
    return not any(disks_of(event) & disks_of(rival) for event, rivals in events_and_rivals(scene, run) for rival in rivals)


def meets_no_corner(scene, run):
    """Whether no disk at a side comes to another one in the same tick."""
    at_sides = (it for it in events_and_rivals(scene, run) if it[0].kind == second.WALL)
    return not any(event.first == rival.first for event, rivals in at_sides for rival in rivals)


def met(run):
    """The numbers of the disks that hit another one, or of the event that failed a limit."""
    pairs = (disks_of(event) for event, _ in run.events if event.kind == second.PAIR)
    return set().union(*pairs, disks_of(run.failed) if run.failed else ())


def last_states(run, order):
    """The state after the last event of each tick that has one, with its disks in this order."""
    return {event.tick: [after[i] for i in order] for event, after in run.events}


def made_anew(run, events, stamp, state):
    """What a run would be of these of its events, with each stamp and each state changed."""
    failed = stamp(run.failed) if run.failed else None
    return second.Run([(stamp(event), state(after)) for event, after in events], run.status, failed)


def exchanged(scene):
    """A scene with x and y exchanged."""
    disks = tuple((y, x, vy, vx, size) for x, y, vx, vy, size in scene.disks)
    return replace(scene, width=scene.height, height=scene.width, disks=disks)


def exchanged_run(run):
    """A run with x and y exchanged: left is bottom then, and right is top."""

    def stamp(event):
        return event._replace(second=(2, 3, 0, 1)[event.second]) if event.kind == second.WALL else event

    def state(after):
        return [disk._replace(x=disk.y, y=disk.x, vx=disk.vy, vy=disk.vx) for disk in after]

    return made_anew(run, run.events, stamp, state)


def run_without(run, left_out):
    """A run without a disk: without its own events, and with the numbers above its own lowered."""

    def stamp(event):
        is_above = event.kind == second.PAIR and event.second > left_out
        return event._replace(first=event.first - (event.first > left_out), second=event.second - is_above)

    def state(after):
        return after[:left_out] + after[left_out + 1 :]

    return made_anew(run, [it for it in run.events if it[0].first != left_out], stamp, state)


def later(report, by):
    """The lines of a report so many ticks later, without those that count and sum up."""
    text = ""
    for line in report.splitlines(True):
        if line[0].isdigit() or line.startswith(("done ", "limit ")):
            text += re.sub(r"\d+", lambda tick: str(int(tick[0]) + by), line, count=1)
        elif line.startswith("disk "):
            text += line
    return text


def from_tick(report, at):
    """The same lines of a report, without the events before a tick."""
    lines = later(report, 0).splitlines(True)
    return "".join(line for line in lines if not line[0].isdigit() or int(line.split(" ")[0]) >= at)


def difference(found, want):
    """The number of the first line in which two texts differ, and both lines; None where they are the same."""
    pairs = enumerate(itertools.zip_longest(found.splitlines(True), want.splitlines(True)), 1)
    return next(((number, *pair) for number, pair in pairs if pair[0] != pair[1]), None)


class Specification(unittest.TestCase):
    def assert_output(self, words, text, want, status=second.DONE):
        found, found_status = program.output(words, text)
        self.assertIsNone(difference(found, want), f"{words}: the first wrong line, and what it should be")
        self.assertEqual(found_status, status, words)

    def test_both_engines_write_the_report_of_each_drawn_scene(self):
        for title, settings, _, scene, run in drawn_scenes():
            want = second.report(scene, run)
            for words in ("--mode plain", f"--mode run {settings.words()}"):
                with self.subTest(title):
                    self.assert_output(words, scene.text(), want, run.status)

    def test_a_summary_leaves_lines_out(self):
        for title, settings, _, scene, run in drawn_scenes():
            with self.subTest(title):
                words = f"--format summary {settings.words()}"
                self.assert_output(words, scene.text(), second.summary(scene, run), run.status)

    def test_states_leave_events_out(self):
        for title, settings, _, scene, run in drawn_scenes():
            with self.subTest(title):
                words = f"--format states {settings.words()}"
                self.assert_output(words, scene.text(), second.states(scene, run), run.status)

    def test_sums_are_those_of_the_run(self):
        for title, settings, at, scene, run in drawn_scenes():
            margin = random.Random(at).choice([0, scene.diameter, random.Random(at).randint(0, scene.width)])
            with self.subTest(f"--margin {margin}, {title}"):
                words = f"--format sums --margin {margin} {settings.words()}"
                self.assert_output(words, scene.text(), second.sums(scene, run, margin), run.status)

    def test_a_cut_leaves_what_goes_on_with_the_run(self):
        for title, settings, at, scene, run in drawn_scenes():
            rest, status = second.cut(scene, at)
            with self.subTest(f"--at {at}, {title}"):
                self.assert_output(f"--mode cut --at {at}", scene.text(), rest, status)
                if status == second.DONE:
                    found, found_status = program.output(settings.words(), rest)
                    whole = second.report(replace(scene, every=None), run)
                    self.assertIsNone(difference(later(found, at), from_tick(whole, at)))
                    self.assertEqual(found_status, run.status)

    def test_each_small_scene_of_the_repository_has_its_report(self):
        for path in sorted(SCENES.glob("*.toml")):
            scene = read_scene(path)
            if len(scene.disks) <= FEW:
                with self.subTest(path.name):
                    want = path.with_suffix(".report").read_text(encoding="ascii")
                    self.assertIsNone(difference(second.report(scene, second.run(scene)), want))
                    self.assert_output("--mode run", path.read_text(encoding="utf-8"), want)


class Laws(unittest.TestCase):
    """Laws of runs that are proved of the definitions, tried on the second simulator."""

    def assert_some(self, tried):
        """A law that is tried on too few scenes shows nothing."""
        self.assertGreaterEqual(tried, ASKED.scenes // 10)

    def test_numbers_dont_matter_where_no_two_events_share_a_disk(self):
        tried = 0
        for title, chance, scene, run in small_scenes():
            if run.status == second.DONE and none_shares_a_disk(scene, run):
                numbers = range(len(scene.disks))
                order = chance.sample(numbers, len(numbers))
                other = second.run(replace(scene, disks=tuple(scene.disks[i] for i in order)))
                with self.subTest(f"{order}, {title}"):
                    self.assertEqual(other.status, second.DONE)
                    self.assertEqual(len(other.events), len(run.events))
                    self.assertEqual(last_states(other, numbers), last_states(run, order))
                tried += 1
        self.assert_some(tried)

    def test_x_and_y_can_be_exchanged_where_no_disk_comes_into_a_corner(self):
        tried = 0
        for title, _, scene, run in small_scenes():
            if meets_no_corner(scene, run):
                with self.subTest(title):
                    self.assertEqual(second.run(exchanged(scene)), exchanged_run(run))
                tried += 1
        self.assert_some(tried)

    def test_a_disk_that_hits_no_other_can_be_left_out(self):
        tried = 0
        for title, chance, scene, run in small_scenes():
            bystanders = sorted(set(range(len(scene.disks))) - met(run))
            if bystanders:
                k = chance.choice(bystanders)
                with self.subTest(f"without {k}, {title}"):
                    others = replace(scene, disks=scene.disks[:k] + scene.disks[k + 1 :])
                    self.assertEqual(second.run(others), run_without(run, k))
                tried += 1
        self.assert_some(tried)

    def test_limits_only_end_runs(self):
        for title, _, scene, run in small_scenes():
            speed, rounds = 2 * scene.speed_limit, scene.round_limit + 2
            other = second.run(replace(scene, speed_limit=speed, round_limit=rounds))
            with self.subTest(title):
                self.assertEqual(other.events[: len(run.events)], run.events)
                if run.status == second.DONE:
                    self.assertEqual(other, run)


class SecondSimulator(unittest.TestCase):
    def test_ticks_that_are_worked_out_are_the_only_ones(self):
        chance = random.Random(0)
        for _ in range(100):
            scene = replace(drawn.scene(chance, kinds=[drawn.tiny, drawn.fast], most_disks=4), end=40)
            state = second.records_at_start(scene)
            ticks = range(-2, scene.end)
            with self.subTest(scene.text()):
                for disk in state:
                    for side in range(4):
                        only = [tick for tick in ticks if second.is_wall_tick(scene, disk, side, tick)]
                        self.assertEqual(only, self.found(second.wall_tick(scene, disk, side), ticks))
                for pair in itertools.combinations(state, 2):
                    only = [tick for tick in ticks if second.is_contact_tick(scene, *pair, tick)]
                    self.assertEqual(only, self.found(second.contact_tick(scene, *pair), ticks))

    def found(self, tick, ticks):
        return [tick] if tick in ticks else []

    def test_each_function_follows_a_heading_of_the_specification(self):
        headings = re.findall(r"^##+ (.*)", SPECIFICATION.read_text(encoding="utf-8"), re.M)
        for name, item in vars(second).items():
            if getattr(item, "__module__", None) == second.__name__ and name != "main":
                with self.subTest(name):
                    self.assertIn(item.__doc__.split(":")[0], headings)


def main():
    parser = argparse.ArgumentParser(description=__doc__, formatter_class=argparse.RawDescriptionHelpFormatter)
    parser.add_argument("--scenes", type=int, default=ASKED.scenes, metavar="N")
    parser.add_argument("--seed", type=int, default=ASKED.seed, metavar="K")
    parser.add_argument("program", nargs="?", metavar="PROGRAM")
    parser.parse_args(namespace=ASKED)
    program.PROGRAM = program_or_exit(ASKED.program)
    unittest.main(argv=sys.argv[:1])


if __name__ == "__main__":
    main()

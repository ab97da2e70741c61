#!/usr/bin/env python3
"""Tests of what the built program writes: whole outputs that were worked out by hand, the reports of scenes/, and what
its words must not change.

    python3 tools/tests/test_program.py [PROGRAM]

PROGRAM is the one that the variable HARD_DISKS names, or the built one, where none is named."""
import contextlib
import os
import pty
import random
import resource
import signal
import subprocess
import sys
import tempfile
import tomllib
import unittest

import drawn
from places import SCENES, TESTS, program_of_words

PROGRAM = ""  # which one is tested is found at the end
OUTPUTS = tomllib.loads((TESTS / "outputs.toml").read_text(encoding="utf-8"))
# How long, in seconds, a run may take, on a busy machine.
LONG = 120
DONE, SCENE_REFUSED, READ_FAULT, WRITE_FAULT, WRONG = 0, 3, 6, 7, 9
# The most bytes that a text may have.
MOST_BYTES = 67_108_864
# How many bytes are read or written together.
MANY = 65_536
# Part of a line.
HASHES = b"#" * MANY
# How a scene may be run, which makes no difference to its report.
WAYS = [
    "--mode plain",
    "--mode run",
    "--regions 1 --workers 1",
    "--regions 20 --workers 8",
    "--regions 4 --workers 4 --turns 1 --steps 1",
    "--regions 4 --workers 2 --turns 64 --steps 4096",
    "--regions 4 --workers 2 --burst table",
]


# All formats of a run.
FORMATS = ["lines", "states", "summary", "sums"]
# More workers than a machine mostly has processors: in full groups, in one more, and as many as there may be; and the
# tick up to which they run the strip. On a table so many look at each other's slots that a long run takes seconds.
MANY_WORKERS = [
    ("--workers 16 --burst locks", 100),
    ("--workers 33 --burst locks", 100),
    ("--workers 64 --burst locks", 100),
    ("--workers 16 --burst table", 20),
    ("--workers 33 --burst table", 5),
    ("--workers 64 --burst table", 5),
]


def strip(end):
    """The text of a scene that ends at this tick, whose box has 64 columns of cells, and so room for as many regions."""
    draw = random.Random(64)
    rows = [[10 * i + 5, draw.randint(4, 36), draw.randint(-2, 2), draw.randint(-2, 2)] for i in range(128)]
    numbers = "width = 1280\nheight = 40\ndiameter = 4\nspeed_limit = 8\nround_limit = 64\nevery = 2\n"
    return f"{numbers}end = {end}\ndisks = {rows}\n"


def output(words, text=""):
    """What the program writes with these words and this input, and its status."""
    ran = subprocess.run([PROGRAM, *words.split()], input=text.encode(), capture_output=True, timeout=LONG)
    if ran.stderr:
        raise AssertionError(f"{words}: on standard error stands {ran.stderr}")
    return ran.stdout.decode(), ran.returncode


def endless_output(words, text):
    """The same where a line without an end follows the input."""
    how = {"stdin": subprocess.PIPE, "stdout": subprocess.PIPE, "bufsize": 0}
    with subprocess.Popen([PROGRAM, *words.split()], **how) as ran:
        try:
            ran.stdin.write(text.encode())
            for _ in range(2 * MOST_BYTES // len(HASHES)):
                ran.stdin.write(HASHES)
            raise AssertionError("it reads on and on")
        except BrokenPipeError:
            return ran.stdout.read().decode(), ran.wait(LONG)
        finally:
            ran.kill()


def output_into(words, text, room):
    """What the program writes into a file that holds so many bytes, and its status."""

    def limit():
        signal.signal(signal.SIGXFSZ, signal.SIG_IGN)
        resource.setrlimit(resource.RLIMIT_FSIZE, (room, room))

    with tempfile.TemporaryFile() as file:
        how = {"input": text.encode(), "stdout": file, "preexec_fn": limit, "timeout": LONG}
        ran = subprocess.run([PROGRAM, *words.split()], **how)
        file.seek(0)
        return file.read().decode(), ran.returncode


def status_into(words, text, **how):
    """The status of the program where its output goes somewhere."""
    return subprocess.run([PROGRAM, *words.split()], input=text.encode(), timeout=LONG, **how).returncode


def output_at_terminal(words):
    """What the program writes to a terminal, with no input, and its status."""
    terminal, output_end = pty.openpty()
    with subprocess.Popen([PROGRAM, *words.split()], stdin=subprocess.DEVNULL, stdout=output_end) as ran:
        os.close(output_end)
        text = b""
        # A terminal whose other end is closed says so by a fault.
        with contextlib.suppress(OSError):
            while some := os.read(terminal, MANY):
                text += some
        os.close(terminal)
        return text.decode().replace("\r\n", "\n"), ran.wait(LONG)


def changed(scene, old, new):
    """The text of a scene with one place changed."""
    if old not in scene:
        raise AssertionError(f"no such place in the scene: {old}")
    return scene.replace(old, new, 1)


def drawn_scenes(count):
    """The texts of so many drawn scenes, with all disks in one line, which isn't canonical."""
    chance = random.Random(3)
    return [drawn.scene(chance).text().replace("\n  ", " ") for _ in range(count)]


class Outputs(unittest.TestCase):
    maxDiff = None

    def assert_output(self, words, text, status, want):
        found, code = output(words, text)
        self.assertEqual((code, found), (status, want), words)

    def assert_refused(self, table):
        for words in table["words"]:
            for old, new, line in table["rows"]:
                with self.subTest(words=words, old=old, new=new):
                    self.assert_output(words, changed(table["scene"], old, new), SCENE_REFUSED, line + "\n")

    def test_each_case_has_its_output(self):
        for case in OUTPUTS["case"]:
            for words in case["words"]:
                with self.subTest(case["name"], words=words):
                    self.assert_output(words, case["input"], case["status"], case["output"])

    def test_each_broken_scene_is_refused(self):
        self.assert_refused(OUTPUTS["refusals"])

    def test_the_first_of_two_faults_is_told(self):
        self.assert_refused(OUTPUTS["two_faults"])

    def test_too_many_disks_are_refused(self):
        scene = changed(OUTPUTS["refusals"]["scene"], "[10, 10, 1, 0],\n  [20, 10, -1, 0]", "[], " * 65_536 + "[]")
        self.assert_output("--mode plain", scene, SCENE_REFUSED, "refused 7 too many disks 65537\n")

    def test_a_text_of_a_byte_too_much_is_too_long(self):
        scene = OUTPUTS["refusals"]["scene"]
        longest = scene + "#" * (MOST_BYTES - len(scene))
        self.assert_output("--mode check --format summary", longest, DONE, "scene 2\n")
        self.assert_output("--mode check", longest + "#", SCENE_REFUSED, "refused 1 too long\n")

    def test_four_hundred_disks_have_room(self):
        rows = [[3 + 5 * (i // 20), 3 + 5 * (i % 20), 0, 0] for i in range(400)]
        limits = "speed_limit = 8\nround_limit = 8\nend = 2\n"
        scene = f"width = 101\nheight = 101\ndiameter = 4\nevery = 1\n{limits}disks = {rows}\n"
        self.assert_output("--mode check --format summary", scene, DONE, "scene 400\n")
        sums = "done 2\nwalls 0\npairs 0\nmomentum 0 0\nenergy 0 0\n"
        self.assert_output("--mode plain --format summary", scene, DONE, sums)

    def test_a_full_disk_leaves_a_prefix(self):
        scene = OUTPUTS["refusals"]["scene"]
        for words in ("--mode plain", "--mode run", "--format sums", "--format states", "--mode check", "--mode cut --at 4"):
            want = output(words, scene)[0]
            for room in range(0, len(want), 7):
                with self.subTest(words, room=room):
                    self.assertEqual(output_into(words, scene, room), (want[:room], WRITE_FAULT))
            self.assertEqual(output_into(words, scene, len(want)), (want, DONE))

    def test_an_output_that_takes_nothing_is_a_write_fault(self):
        scene = OUTPUTS["refusals"]["scene"]
        for words in ("--mode plain", "--format sums", "--mode check", "--mode cut --at 4", "--mode load --disks 100", "no words"):
            with self.subTest(words), open("/dev/full", "wb") as full:
                self.assertEqual(status_into(words, scene, stdout=full), WRITE_FAULT)
            with self.subTest(words, output="closed"):
                self.assertEqual(status_into(words, scene, preexec_fn=lambda: os.close(1)), WRITE_FAULT)

    def test_a_terminal_gets_the_report(self):
        want = output("--mode load --disks 100")[0]
        self.assertEqual(output_at_terminal("--mode load --disks 100"), (want, DONE))

    def test_nothing_is_written_where_no_byte_can_be_read(self):
        for words in ("--mode plain", "--mode run", "--mode check", "--mode cut", "--mode audit"):
            with self.subTest(words), open("/proc/self/mem", "rb") as unreadable:
                ran = subprocess.run([PROGRAM, *words.split()], stdin=unreadable, capture_output=True, timeout=LONG)
                self.assertEqual((ran.stdout, ran.returncode), (b"", READ_FAULT))

    def test_each_scene_of_the_repository_has_its_report(self):
        for scene in sorted(SCENES.glob("*.toml")):
            want = scene.with_suffix(".report").read_text(encoding="ascii")
            for words in WAYS:
                with self.subTest(scene.name, words=words):
                    self.assertEqual(output(words, scene.read_text(encoding="utf-8"))[0], want)

    def test_the_sums_of_scenes_are_those_that_were_worked_out_by_hand(self):
        for sums in sorted(SCENES.glob("*.sums")):
            scene, want = (sums.with_suffix(kind).read_text(encoding="utf-8") for kind in (".toml", ".sums"))
            for words in WAYS:
                with self.subTest(sums.name, words=words):
                    self.assertEqual(output(f"{words} --format sums", scene)[0], want)

    def test_states_are_the_report_without_collisions(self):
        for scene in sorted(SCENES.glob("*.toml")):
            report = scene.with_suffix(".report").read_text(encoding="ascii")
            want = "".join(line for line in report.splitlines(keepends=True) if not line[0].isdigit())
            for words in WAYS:
                with self.subTest(scene.name, words=words):
                    self.assertEqual(output(f"{words} --format states", scene.read_text(encoding="utf-8"))[0], want)

    def test_any_numbers_of_regions_and_workers_write_the_report(self):
        scene, want = ((SCENES / f"row.{kind}").read_text(encoding="utf-8") for kind in ("toml", "report"))
        for regions in (1, 2, 4, 20, 64):
            for workers in (1, 2, 8):
                for burst in ("locks", "table"):
                    words = f"--regions {regions} --workers {workers} --burst {burst}"
                    with self.subTest(words):
                        self.assert_output(words, scene, DONE, want)

    def test_many_workers_write_what_no_worker_does(self):
        for form in FORMATS:
            ends = {end for _, end in MANY_WORKERS}
            want = {end: output(f"--mode plain --format {form}", strip(end)) for end in ends}
            for workers, end in MANY_WORKERS:
                words = f"--regions 64 {workers} --format {form}"
                with self.subTest(words):
                    self.assertEqual(output(words, strip(end)), want[end])

    def test_a_table_writes_what_locks_write(self):
        scene = "--mode load --number 7 --disks 100 --regions 8"
        want = output(f"{scene} --burst locks")
        for turns in ("--turns 1 --steps 1", "--turns 3 --steps 50", "--turns 65536 --steps 4096"):
            for workers in (1, 4):
                words = f"{scene} --workers {workers} {turns} --burst table"
                with self.subTest(words):
                    self.assertEqual(output(words), want)

    def test_drawn_scenes_write_the_same_however_they_are_run(self):
        for scene in drawn_scenes(30):
            want = output("--mode plain", scene)
            for words in WAYS:
                with self.subTest(words, scene=scene):
                    self.assertEqual(output(words, scene), want)

    def test_made_scenes_have_the_sums_of_another_simulator(self):
        sums = {
            36: "done 1000\nwalls 338\npairs 953\nmomentum 149 -254\nenergy 117185 115633\n",
            1000: "done 1000\nwalls 1451\npairs 22220\nmomentum -332 -1236\nenergy 2680548 2690350\n",
        }
        for disks, want in sums.items():
            for how in ("--regions 1 --workers 1", "--regions 4 --workers 4", "--regions 4 --workers 4 --burst table"):
                words = f"--mode=load --number=7 --format=summary --disks {disks} {how}"
                with self.subTest(words):
                    self.assert_output(words, "", DONE, want)

    def test_a_canonical_text_is_read_back_as_the_same_scene(self):
        scenes = [path.read_text(encoding="utf-8") for path in SCENES.glob("*.toml")]
        for scene in scenes + drawn_scenes(10):
            with self.subTest(scene=scene):
                text = output("--mode check", scene)[0]
                self.assert_output("--mode check", text, DONE, text)
                self.assertEqual(output("--mode plain", text), output("--mode plain", scene))

    def test_an_audit_ends_where_its_input_has_no_end(self):
        meeting = OUTPUTS["refusals"]["scene"]
        report = output("--mode run", meeting)[0]
        rows = [
            ("", SCENE_REFUSED, "refused 1 too long\n"),
            (f"{meeting}===", SCENE_REFUSED, "refused 1 too long\n"),
            (f"{meeting}===\n3 0 pair 0 1 -1 0 1 0\ndone 5", WRONG, "audit line 2\nexpected done 5\n"),
            (f"{meeting}===\n{report}", WRONG, "audit line 9\nexpected nothing\n"),
        ]
        for text, status, want in rows:
            with self.subTest(text):
                self.assertEqual(endless_output("--mode audit", text), (want, status))

    def test_an_audit_ends_at_the_first_wrong_line(self):
        scene = (SCENES / "fluid.toml").read_text(encoding="utf-8")
        # A run up to this tick takes hours.
        long = changed(scene, "end = 3000\n", "end = 1000000000\n")
        report = output("--mode run", scene)[0].splitlines()
        for at in (0, 100):
            claimed = "\n".join([*report[:at], "wrong", ""])
            with self.subTest(line=at + 1):
                want = f"audit line {at + 1}\nexpected {report[at]}\n"
                self.assert_output("--mode audit", f"{long}===\n{claimed}", WRONG, want)

    def test_an_audit_finds_each_report_right(self):
        for scene in drawn_scenes(10):
            report = output("--mode plain", scene)[0]
            with self.subTest(scene=scene):
                right = f"audit ok {len(report.splitlines())}\n"
                self.assert_output("--mode audit", f"{scene}===\n{report}", DONE, right)


def main():
    global PROGRAM
    PROGRAM = program_of_words()
    unittest.main()


if __name__ == "__main__":
    main()

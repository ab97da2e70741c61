#!/usr/bin/env python3
"""Tests of the built program where it gets less memory than it asks for, and no more stack than the specification says.

    python3 tools/tests/test_limits.py [PROGRAM]

PROGRAM is the one that the variable HARD_DISKS names, or the built one, where none is named."""
import os
import re
import resource
import shutil
import signal
import subprocess
import tempfile
import unittest

from places import SCENES, TESTS, TOP, program_of_words

PROGRAM = ""  # which one is tested is found at the end
NO_MEMORY = 8
FORMATS = ("lines", "summary", "states", "sums")
# How often each stack is tried.
ENOUGH = 3
LOAD = "--mode load --number 7 --disks"
# No request is this great a number.
NEVER = 1_000_000
# Threads may make some requests more than in another run.
MORE = 8
# A program that hasn't ended after so many seconds never will.
AGES = 60
# How much the stack's begin differs by chance, in KiB.
CHANCE = 16
# The sentence that states the stack, in KiB: in mode plain, as the words have it, with 64 workers, and of an audit.
STACK = re.compile(r"takes up to (\d+) KiB of stack in mode `plain`, (\d+) as the words have it, (\d+) with 64 workers, and an audit (\d+);")


def read(name):
    return (SCENES / name).read_bytes()


def run(words, scene, environment=None, stack=None):
    """Runs the program on a scene, with this environment, and so many KiB of stack if they are limited."""

    def limit():
        resource.setrlimit(resource.RLIMIT_STACK, (stack * 1024, stack * 1024))

    how = {"env": environment or {}, "capture_output": True, "timeout": AGES}
    return subprocess.run([PROGRAM, *words.split()], input=scene, preexec_fn=limit if stack else None, **how)


@unittest.skipUnless(shutil.which("cc"), "there is no C compiler cc, which makes a malloc that refuses")
class Memory(unittest.TestCase):
    @classmethod
    def setUpClass(cls):
        room = tempfile.TemporaryDirectory()
        cls.addClassCleanup(room.cleanup)
        cls.library = f"{room.name}/refusing.so"
        subprocess.run(["cc", "-O2", "-shared", "-fPIC", "-o", cls.library, str(TESTS / "refusing_malloc.c")], check=True)

    def refused(self, words, scene, first, last):
        return run(words, scene, {"LD_PRELOAD": self.library, "REFUSED_FROM": str(first), "REFUSED_TO": str(last)})

    def requests(self, words, scene):
        """How many requests for memory a run makes, and its output."""
        whole = self.refused(words, scene, NEVER, NEVER)
        self.assertEqual(whole.returncode, 0, whole.stderr)
        return int(whole.stderr), whole.stdout

    def assert_answered(self, words, scene, first, last, whole):
        """Status 8 and a prefix of the report; or the whole of it, if what was refused can be done without."""
        ran = self.refused(words, scene, first, last)
        if (ran.returncode, ran.stdout) != (0, whole):
            self.assertEqual(ran.returncode, NO_MEMORY, f"request {first} refused: {ran.stderr}")
            self.assertTrue(whole.startswith(ran.stdout), f"request {first} refused: no prefix of the report")
        return ran

    def test_status_8_and_a_prefix_whichever_request_is_refused(self):
        """With four workers, whose runs make more requests, each format has a fourth of them refused."""
        cases = [("", read("pair.toml")), ("", read("gas.toml")), (f"{LOAD} 36", b"")]
        for more, scene in cases:
            for step, settings in ((1, "--regions 1 --workers 1"), (len(FORMATS), "--regions 4 --workers 4")):
                for at, name in enumerate(FORMATS):
                    words = f"{more} {settings} --format {name}"
                    with self.subTest(words):
                        count, whole = self.requests(words, scene)
                        ended = {self.assert_answered(words, scene, it, it, whole).returncode for it in range(1 + at % step, count + MORE, step)}
                        self.assertIn(NO_MEMORY, ended)

    def test_the_same_where_no_later_request_is_granted_either(self):
        for more, scene in (("", read("gas.toml")), (f"{LOAD} 2000", b"")):
            words = f"{more} --regions 4 --workers 4 --format summary"
            with self.subTest(words):
                count, whole = self.requests(words, scene)
                for it in range(1, count, max(count // 50, 1)):
                    ran = self.assert_answered(words, scene, it, NEVER, whole)
                    # (it may have asked less often than the whole run did, and so be refused nothing)
                    self.assertTrue(ran.returncode == NO_MEMORY or int(ran.stderr) < it, f"request {it} and all later ones refused")


class Stack(unittest.TestCase):
    def test_it_takes_what_the_specification_says_and_no_more(self):
        stated = STACK.search((TOP / "docs/SPECIFICATION.md").read_text(encoding="utf-8"))
        self.assertIsNotNone(stated, "SPECIFICATION has no such sentence")
        gas, claim = read("gas.toml"), read("gas.toml") + b"===\n" + read("gas.report")
        most = "--regions 64 --workers 64"
        cases = [("--mode plain", gas), ("", gas), (most, gas), (f"--mode audit {most}", claim)]
        for (words, scene), kib in zip(cases, map(int, stated.groups())):
            with self.subTest(words):
                for _ in range(ENOUGH):
                    ran = run(words, scene, stack=kib + CHANCE)
                    self.assertEqual((ran.returncode, ran.stdout[:9]), (0, b"audit ok " if "audit" in words else ran.stdout[:9]))
                # (so the figure isn't idle)
                self.assertEqual(run(words, scene, stack=3 * kib // 4 - CHANCE).returncode, -signal.SIGSEGV)


def main():
    global PROGRAM
    PROGRAM = os.path.abspath(program_of_words())
    unittest.main()


if __name__ == "__main__":
    main()

#!/usr/bin/env python3
"""Tests of tools/wrong_bodies, over a crate of six functions: what it says of a wrong body that is refused, and of those that
are no faults, that are refused for a name alone, or that can't be applied. Checks of that crate take some seconds each.

    python3 tools/tests/test_wrong_bodies.py"""
import os
import shutil
import subprocess
import sys
import tempfile
import unittest
from pathlib import Path

from places import TOOLS

sys.path.insert(0, str(TOOLS))

from trying.edits import Place, place_of
from trying.reach import Reach, name_at
from trying.verdicts import Said

CODE = """//! Functions whose wrong bodies are of each kind.
#![tactic(auto)]

ghost use Rattle.std.specs.Prelude.{◌≡◌, ◌+◌, ◌≤◌};
ghost use Rattle.toy.specs.Bounds.{IsDigit, IsSmall};

/// Twice a number.
pub fn twice(x: u64) -> u64
    requires small { x ≤ 100 }
    ensures { result ≡ x + x }
{
    x + x
}

/// A number or 5, whichever is less.
pub fn at_most_five(x: u64) -> u64
    ensures { result ≤ 5 }
{
    if x < 5 { x } else { 5 }
}

/// The next number.
pub fn next(x: u64) -> u64
    requires small { x ≤ 100 }
    ensures { result ≤ 101 }
{
    x + 1
}

/// The number after that.
pub fn next_but_one(x: u64) -> u64
    requires small { x ≤ 100 }
    ensures { result ≤ 102 }
{
    next(x) + 1
}

/// A number or 9, whichever is less.
pub fn digit(x: u64) -> u64
    ensures { IsDigit result }
{
    if x < 9 { x } else { 9 }
}

/// A number of less than nine bits.
pub fn widened(x: u8) -> u64
    ensures { IsSmall result }
{
    u64::from(x)
}
"""
BOUNDS = """-- Bounds of numbers.
use Rattle.std.specs.Prelude.{ℕ, ◌≤◌}

-- a number up to another
abbrev pub IsAtMost : ℕ → ℕ → Type 0
IsAtMost bound n = n ≤ bound

-- a number of one digit
abbrev pub IsDigit : ℕ → Type 0
IsDigit n = IsAtMost 9 n

-- a number that is small
abbrev pub IsSmall : ℕ → Type 0
IsSmall n = n ≤ 300
"""
ANSWERS = """use Rattle.std.proofs.Common.{arith}
use Rattle.toy.proofs.next.Goals as goal

pub overflow_add-result : goal.overflow_add-result
overflow_add-result c = omega (arith, c.requires.small)
"""
# Wrong bodies by name: what stands in the code, and what in its place.
REFUSED = {
    "nothing_added": ("    x + x", "    x"),
    # Nothing is said of it as long as `next`, which it calls, isn't proved.
    "far_on": ("next(x) + 1", "next(x) + 2"),
}
FAULTS = {
    "at_most_four": ("if x < 5 { x } else { 5 }", "if x < 5 { x } else { 4 }"),
    "stays": ("    x + 1", "    x"),
    "gone": ("x - 1", "x - 2"),
}
# Wrong definitions by name.
DEFINITIONS = {
    "eight_digits": ("IsDigit n = IsAtMost 9 n", "IsDigit n = IsAtMost 8 n"),
    "up_to_a_byte": ("IsSmall n = n ≤ 300", "IsSmall n = n ≤ 255"),
}
SAID = {"at_most_four": "NOT REFUSED", "up_to_a_byte": "NOT REFUSED", "stays": "REFUSED FOR A NAME ALONE", "gone": "BAD EDIT"}

# What a check says of functions with edits, and of those that call them.
CHECKED = """./proofs/region/Region/hear/Answers.antt:8:5: error: `returns`: as printed, the two types differ
./proofs/is_near/Answers.antt:9:36: error: `x`: module `Rattle.toy.proofs.is_near.Goals` has no `x` that can be named from here
note: src/lib.rt:12:1: it is not proved that what the function ensures holds when it returns (`returns`)
fn toy::region::Region::hear: not proved
fn toy::is_near: not proved
note: src/lib.rt:52:1: it is not proved that what the function ensures holds when it returns (`returns`)
fn toy::near: no proof: expected answers in ./proofs/near/Answers.antt; `search` did not prove `returns`
fn toy::far: not proved; it calls `toy::is_near`, which is not proved
fn toy::over: no proof: it calls `toy::far`, which is not proved
logic=not-proved"""


class Verdicts(unittest.TestCase):
    def setUp(self):
        self.said = Said(CHECKED.split("\n"))

    def refusal(self, first, last, path, owner="", file="src/lib.rt"):
        return self.said.refusal(Place(file, first, last, path, owner))

    def test_a_method_is_told_of_where_its_type_stands(self):
        place = (1, 9, ("region", "hearing", "hear"), "Region", "src/region/hearing.rt")
        self.assertIn("the two types differ", self.refusal(*place))
        self.assertIsNone(self.refusal(1, 9, ("region", "hearing", "hear")))

    def test_a_name_that_is_gone_is_no_refusal_but_a_goal_of_the_function_is(self):
        self.assertIsNone(self.refusal(20, 29, ("is_near",)))
        self.assertIn("it is not proved that", self.refusal(10, 14, ("is_near",)))
        self.assertIn("it is not proved that", self.refusal(50, 54, ("near",)))

    def test_to_call_what_is_not_proved_is_no_refusal(self):
        for name, blockers in (("far", {("is_near",)}), ("over", {("far",), ("is_near",)})):
            place = Place("src/lib.rt", 30, 39, (name,), "")
            self.assertEqual((self.said.refusal(place), self.said.blockers(place)), (None, blockers))


class WrongBodies(unittest.TestCase):
    @classmethod
    def setUpClass(cls):
        room = tempfile.TemporaryDirectory()
        cls.addClassCleanup(room.cleanup)
        cls.top = Path(room.name)
        crate = cls.top / "crates/toy"
        for folder in ("src", "specs", "proofs/next", "wrong"):
            (crate / folder).mkdir(parents=True)
        (cls.top / "crates.txt").write_text("toy:\n", encoding="utf-8")
        (crate / "src/lib.rt").write_text(CODE, encoding="utf-8")
        (crate / "proofs/next/Answers.antt").write_text(ANSWERS, encoding="utf-8")
        (crate / "specs/Lib.antt").write_text("pub mod Bounds\n", encoding="utf-8")
        (crate / "specs/Bounds.antt").write_text(BOUNDS, encoding="utf-8")
        for file, edits in (("src/lib.rt", {**REFUSED, **FAULTS}), ("specs/Bounds.antt", DEFINITIONS)):
            for name, (old, new) in edits.items():
                (crate / f"wrong/{name}.edit").write_text(f"# A wrong body.\nfile: {file}\nold: {old}\nnew: {new}\n", encoding="utf-8")
        (cls.top / "tools").mkdir()
        shutil.copy(TOOLS / "wrong_bodies", cls.top / "tools")
        shutil.copytree(TOOLS / "trying", cls.top / "tools/trying")
        cls.first = cls.run_tool()

    @classmethod
    def run_tool(cls):
        environment = {**os.environ, "XDG_CACHE_HOME": str(cls.top / "cache"), "RT_JOBS": "1"}
        return subprocess.run([cls.top / "tools/wrong_bodies", "--all"], env=environment, capture_output=True, text=True)

    def assert_said(self, ran, name, verdict):
        self.assertIn(f"wrong_bodies: toy/{name}: {verdict}: ", ran.stdout, ran.stderr)

    def test_what_breaks_a_goal_is_refused(self):
        for name in (*REFUSED, "eight_digits"):
            self.assert_said(self.first, name, "refused")

    def test_each_fault_is_told_and_fails(self):
        for name, verdict in SAID.items():
            self.assert_said(self.first, name, verdict)
        self.assertEqual(self.first.returncode, 1)
        self.assertIn("wrong_bodies: 3 refused, 4 faults;", self.first.stdout)

    def test_what_was_refused_is_not_tried_again(self):
        for name in SAID:
            os.rename(self.top / f"crates/toy/wrong/{name}.edit", self.top / name)
        try:
            again = self.run_tool()
        finally:
            for name in SAID:
                os.rename(self.top / name, self.top / f"crates/toy/wrong/{name}.edit")
        self.assertEqual(again.returncode, 0, again.stderr)
        self.assertIn("wrong_bodies: 3 refused, 3 of them earlier on this machine, 0 faults;", again.stdout)

    def test_the_function_around_a_line_is_found(self):
        lines = CODE.split("\n")
        for text, path, is_body in (("    x + x", ("twice",), True), ("    ensures { result ≤ 101 }", ("next",), False), ("    next(x) + 1", ("next_but_one",), True)):
            place, found = place_of("src/lib.rt", lines, lines.index(text))
            self.assertEqual((place.path, found), (path, is_body))
        self.assertIsNone(place_of("src/lib.rt", lines, 1))
        self.assertEqual(place_of("src/a.rt", ["// A test.", "#[inline]", "fn f()", "{", "    g();", "}"], 4)[0], Place("src/a.rt", 2, 6, ("a", "f"), ""))

    def test_what_rests_on_a_definition_is_found(self):
        self.assertEqual(name_at(BOUNDS, BOUNDS.find("n ≤ 300")), "IsSmall")
        reach = Reach(self.top / "crates/toy")
        for names, reached in (({"IsAtMost"}, {"digit"}), ({"IsSmall"}, {"widened"}), ({"next"}, {"next", "next_but_one"})):
            self.assertEqual({place.path[-1] for place in reach.of(names)[0]}, reached)


if __name__ == "__main__":
    unittest.main()

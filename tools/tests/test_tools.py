#!/usr/bin/env python3
"""Tests of what needs Python's standard library alone: the package's reports and conservation, and the documents' script.
What needs numpy is tested by test_physics.py.

    python3 tools/tests/test_tools.py"""
import contextlib
import dataclasses
import io
import os
import re
import subprocess
import sys
import tempfile
import tomllib
import unittest
from pathlib import Path
from unittest import mock

from places import SCENES, TOOLS

import check_docs
import check_returns
from check_drawn import check_drawn, check_sums, draw
import hard_disks.__main__ as package_main
from hard_disks import reports
from hard_disks.conservation import check, follow
from hard_disks.explaining import explain
from hard_disks.program import find_program
from hard_disks.reports import Collision, Collisions, Limit, State, Sums, read_report
from hard_disks.scene_text import GOES_ON, parse_scene, read_scene
from hard_disks.scenes import Refused

NAMES = sorted(it.stem for it in SCENES.glob("*.toml"))
LIMIT = "0 0 wall 0 0 2 -2\nlimit rounds 0 1 wall 0 2\nwalls 1\npairs 0\n"


def scene_file(name):
    return str(SCENES / f"{name}.toml")


def report_of(name):
    return (SCENES / f"{name}.report").read_text(encoding="ascii")


def read(text):
    """What the parser makes of a text."""
    return list(read_report(io.StringIO(text)))


def checked(name, text):
    return check(read_scene(scene_file(name)), read_report(io.StringIO(text)))


class Reports(unittest.TestCase):
    def test_each_report_keeps_momentum_and_energy(self):
        for name in NAMES:
            with self.subTest(name):
                self.assertIn("changed by", checked(name, report_of(name)))

    def test_a_changed_velocity_is_found(self):
        with self.assertRaisesRegex(Refused, "tick 4: momentum"):
            checked("row", report_of("row").replace("4 0 pair 0 1 0 0 8 0", "4 0 pair 0 1 0 0 7 0"))

    def test_a_changed_sum_is_found(self):
        with self.assertRaisesRegex(Refused, "energy"):
            checked("row", report_of("row").replace("energy 64 64", "energy 64 65"))

    def test_what_a_side_turned_is_in_the_momentum(self):
        with self.assertRaisesRegex(Refused, r"momentum \(8, 0\), and it is \(-8, 0\)"):
            checked("row", report_of("row").replace("momentum -8 0", "momentum 8 0"))

    def test_places_keep_the_virial_theorem(self):
        for line, other, tick in [("disk 0 11 10 -1 0", "disk 0 12 10 -1 0", 5), ("disk 1 18 10 -1 0", "disk 1 17 10 -1 0", 2)]:
            with self.subTest(tick), self.assertRaisesRegex(Refused, f"tick {tick}: .* virial theorem"):
                checked("states", report_of("states").replace(line, other))

    def test_sums_of_parts_add_up(self):
        text, scene = Path(scene_file("pair")).read_text(), read_scene(scene_file("pair"))
        kept, _ = follow(scene, read_report(io.StringIO(report_of("pair"))))
        whole, none, walls = (1, 8, 0, 0, 0, 0, 0), (0,) * 7, (0, 0, 1, 4, 0, 0, 0)
        for first, rest, all_of, said in [
            (none, whole, whole, None), (whole, none, whole, None), (none, none, whole, "cut at tick 2"), (walls, whole, whole, "cut at tick 2"),
            (none, none, none, "the sums say"),
        ]:
            program = mock.Mock(**{"output.return_value": (0, "rest"), "sums.side_effect": [all_of, first, rest] * 2})
            with self.subTest(said), self.assertRaisesRegex(Refused, said) if said else contextlib.nullcontext():
                check_sums(text, scene, kept, program)

    def test_drawn_scenes_are_valid_and_move(self):
        for seed in range(20):
            with self.subTest(seed):
                scene = parse_scene(draw(seed))
                for i, (x, y, vx, vy, size) in enumerate(scene.disks):
                    self.assertTrue(size // 2 <= x <= scene.width - size // 2)
                    self.assertTrue(size // 2 <= y <= scene.height - size // 2)
                    self.assertLessEqual(max(abs(vx), abs(vy)), scene.speed_limit)
                    for other_x, other_y, _, _, other in scene.disks[:i]:
                        self.assertGreaterEqual((x - other_x) ** 2 + (y - other_y) ** 2, (size + other) ** 2 // 4)

    def test_drawn_scenes_keep_momentum_and_energy(self):
        try:
            program = find_program()
        except Refused as why:
            self.skipTest(f"no drawn scene was run: {why}")
        self.assertEqual(sum("changed by" in it for it in check_drawn(20, program)), 20)

    def test_a_report_that_breaks_off_is_refused(self):
        for text in ("".join(report_of("row").splitlines(True)[:3]), report_of("row")[:-1], ""):
            with self.subTest(text), self.assertRaisesRegex(Refused, "breaks off"):
                read(text)

    def test_other_lines_are_refused(self):
        for text in ("refused 2 not toml\n", "1 0 pair 0 1 2 3 4\n", "1 0 wall 0 4 2 3\n", "1 0 pair 0 1 2 3 4 5 6\n", "\n"):
            with self.subTest(text), self.assertRaisesRegex(Refused, "no line of a report"):
                read(text)

    def test_disks_stand_in_their_order(self):
        with self.assertRaisesRegex(Refused, "disk 1 where disk 0 is wanted"):
            read(report_of("pair").replace("disk 0", "disk 1"))

    def test_a_limit_is_told(self):
        event, limit, sums = read(LIMIT)
        self.assertEqual(list(event.rows()), [Collision(0, 0, 0, 0, -1, 2, -2, 0, 0)])
        self.assertEqual((limit, sums), (Limit("rounds", 0), Sums(1, 0)))

    def test_small_pieces_and_large_ones_say_the_same(self):
        for name in NAMES:
            with self.subTest(name), mock.patch.object(reports, "PIECE", 7):
                self.assertEqual(rows(read(report_of(name))), lines_of(name))

    def test_numbers_are_the_same_without_numpy(self):
        for name in NAMES:
            with self.subTest(name), mock.patch.object(reports, "numpy", None):
                self.assertEqual(rows(read(report_of(name))), lines_of(name))

    def test_a_scene_has_the_canonical_text_that_it_was_read_from(self):
        for name in NAMES:
            scene = read_scene(scene_file(name))
            self.assertEqual(parse_scene(scene.text()), scene)


class Scenes(unittest.TestCase):
    def test_what_no_measure_could_use_is_refused(self):
        text = Path(scene_file("pair")).read_text()
        for old, new, said in [
            ("width = 40", "width = 0", "isn't from 2"), ("end = 5", "end = 5.0", "end = 5.0 isn't an integer"),
            ("end = 5", "end = 5\nevery = 0", "every"), ("[10, 10, 1, 0]", "[1, 10, 1, 0]", "disk 0: x = 1"),
            ("[10, 10, 1, 0]", "[10, 10, 1]", "disk 0"), ("[10, 10, 1, 0]", "[10, 10, 9, 0]", "disk 0"),
            ("[10, 10, 1, 0]", "[10, 10, 1, 0, 0]", "disk 0"), ("disks", "discs", "key 'discs'"), ("width", "width =", "no TOML"),
        ]:
            with self.subTest(new), self.assertRaisesRegex(Refused, said):
                parse_scene(text.replace(old, new))


class Explained(unittest.TestCase):
    """What is said of the scene pair with one thing changed, and whether the program refuses it too."""

    CHANGES = [
        ("width = 40", "width =", "no TOML: .* line"), ("width = 40", "# \xff", "isn't UTF-8: line"),
        ("width = 40", "width = 40\nwidth = 40", "no TOML"), ("width = 40\n", "", "key width is missing"),
        ("end = 5", "end = 5\nstep = 1", "a key 'step'"), ("end = 5", "end = 5.0", "isn't an integer"),
        ("end = 5", "end = true", "isn't an integer"), ("end = 5", "end = -1", "end = -1 isn't from 0"),
        ("end = 5", "end = 5\nevery = 0", "every = 0 isn't from 1"), ("width = 40", "width = 9999999999", "isn't from 2"),
        ("diameter = 4", "diameter = 5", "isn't even"), ("diameter = 4", "diameter = 22", "greater than"),
        ("[10, 10, 1, 0]", "[10, 10, 1]", r"disk 0: \[10, 10, 1\] isn't x"), ("[10, 10, 1, 0]", "[10, 10, 1.0, 0]", "disk 0: "),
        ("[10, 10, 1, 0]", "[10, 10, 1, 0, 3]", "diameter 3 isn't even"), ("[10, 10, 1, 0]", "[10, 10, 1, 0, 6]", "from 2 to 4"),
        ("[20, 10,", "[39, 10,", "disk 1: x = 39 isn't from 2 to 38"), ("[20, 10,", "[20, 1,", "disk 1: y = 1 isn't"),
        ("-1, 0]", "-1, -9]", "disk 1: the velocity .* above the speed_limit 8"),
        ("[20, 10,", "[13, 8,", "disks 0 and 1 overlap: their centres are 3.60555 apart, and have to be 4"),
    ]

    def changes(self):
        text = Path(scene_file("pair")).read_text()
        for old, new, said in self.CHANGES:
            self.assertIn(old, text)
            yield text.replace(old, new, 1).encode("latin-1"), said

    def test_each_fault_is_said(self):
        for changed, said in self.changes():
            with self.subTest(said):
                found = explain(changed)
                self.assertEqual(len(found), 1, found)
                self.assertRegex(found[0], said)

    def test_the_program_refuses_each_fault(self):
        for changed, said in self.changes():
            with self.subTest(said):
                self.assertRegex(answer_of_the_program(changed), "^refused")

    def test_of_a_valid_scene_nothing_is_said(self):
        for name in NAMES:
            self.assertEqual(explain(Path(scene_file(name)).read_bytes()), [])
        # Two that touch, also across cells, and a byte order mark.
        text = Path(scene_file("pair")).read_text().replace("[20, 10,", "[14, 10,")
        self.assertEqual(explain(b"\xef\xbb\xbf" + text.encode()), [])

    def test_of_many_faults_some_are_said(self):
        text = Path(scene_file("pair")).read_text().replace("disks = [", "disks = [" + "[10, 10, 9, 0], " * 9)
        self.assertEqual(explain(text.encode())[5:6], [".. and 4 more too fast"])


class Toml(unittest.TestCase):
    """Documents in the words of TOML 1.1: what is read of the scene pair with one line more or less is what the program
    reads, or both say that it is no TOML."""

    VALID = [
        ("width", r'"wi\x64th"'), ("width", r'"\u0077idth"'), ("width", "'width'"), ("end = 5", "end = +5 # five"), ("end = 5", "end = 0x5"),
        ("width = 40", "width = 4_0"), ("end = 5", "end = 0b101"), ("[10, 10, 1, 0],", "[10, 10, # \" [\n 1, 0,],"),
    ]
    # Lines that are TOML 1.1, but of a key that no scene has.
    MORE = [
        r'note = "\e[1m \x41 \\x \\e"', 'note = """\n\\x41 "" \\\n """""', "note = '''\\x4 '' \\e'''''", "note = 07:32", "note = 1979-05-27 07:32",
        "note = 1979-05-27T07:32-07:00", "note = 1979-05-27T07:32:00.5Z", "note = 23:59:60", "note = 0000-02-29", "note = {\n a = 1, # \"}\n}",
        "note = { a = [1,\n 2], b = { c = 1, }, }", "note = {}", "note = 1e308", "note = inf", "note = -9223372036854775808",
        "note = " + 80 * "[" + 80 * "]", ".".join(80 * "a") + " = 1", "[" + ".".join(80 * "a") + "]", "\"\" = 1", "'a.b'.\"c\" = 1.5",
        "note = [" + 100 * "[]," + "]",
    ]
    NEVER = [
        "note = " + 81 * "[" + 81 * "]", "note = " + 20_000 * "[", ".".join(81 * "a") + " = 1", "[" + ".".join(81 * "a") + "]",
        "note = 9223372036854775808", "note = 0xffffffffffffffff", "note = " + 5_000 * "9", "note = 1e309", "note = -1e400", r'note = "\x4"', r'note = "\q"',
        "note = 1979-02-29", "note = 24:00:00", "note = 07:60", "note = 07:32.5", "note = { , }", "note = { a = 1,, }", "note = {\n", "note = 1979-05-27T07:32+24:00",
        "note = \x01", "a = 1\na = 2", "a.b = 1\na = 2", "note = 'a\nb'",
    ]

    def test_valid_words_are_read(self):
        text, scene = Path(scene_file("pair")).read_text(), read_scene(scene_file("pair"))
        for old, new in self.VALID:
            for start in ("", "\ufeff"):
                with self.subTest(new):
                    changed = (start + text.replace(old, new, 1)).encode()
                    self.assertEqual(explain(changed), [])
                    self.assertEqual(parse_scene(changed), scene)
                    self.assertEqual(answer_of_the_program(changed), scene.text())

    def assert_told(self, lines, said, line_of_the_program):
        text = Path(scene_file("pair")).read_text()
        for line in lines:
            with self.subTest(line[:100]):
                changed = f"{text}\n{line}\n".encode()
                self.assertRegex(explain(changed)[0], said)
                self.assertRegex(answer_of_the_program(changed), line_of_the_program)

    def test_what_no_scene_has_is_told_as_that(self):
        self.assert_told(self.MORE, "there is a key", "^refused 3")

    def test_what_is_no_toml_is_told(self):
        self.assert_told(self.NEVER, "no TOML", "^refused 2")


def answer_of_the_program(text):
    """What the program writes of a scene in its mode check; without a program the test is skipped."""
    try:
        program = find_program()
    except Refused as why:
        raise unittest.SkipTest(str(why)) from why
    return subprocess.run([program, "--mode", "check"], input=text, capture_output=True).stdout.decode()


def rows(items):
    """The collisions and the states' disks of a report, as lists of numbers."""
    found = []
    for item in items:
        if isinstance(item, Collisions):
            found += [list(row) for row in item.rows()]
        if isinstance(item, State):
            found += [list(row) for row in item.rows()]
    return found


def lines_of(name):
    """The same, line by line."""
    found = []
    for line in report_of(name).splitlines():
        words = line.split()
        if words[0] == "disk":
            found.append([int(it) for it in words[2:]])
        elif words[2:3] == ["pair"]:
            tick, round_, _, *others = words
            found.append([int(tick), int(round_), -1, *map(int, others)])
        elif words[2:3] == ["wall"]:
            tick, round_, _, disk, side, vx, vy = words
            found.append([int(it) for it in (tick, round_, side, disk, -1, vx, vy, 0, 0)])
    return found


class OtherPython(unittest.TestCase):
    def test_it_is_said_which_one_runs_a_command(self):
        error = io.StringIO()
        with (
            mock.patch.multiple(package_main, lacks=lambda: "has no numpy", other_python=lambda: "/other/python3"),
            mock.patch("os.execv", side_effect=SystemExit) as call, mock.patch("sys.argv", ["hard_disks", "scene"]),
            contextlib.redirect_stderr(error), self.assertRaises(SystemExit),
        ):
            package_main.main()
        path, (name, folder, *words) = call.call_args.args
        self.assertEqual((path, name, folder, words), ("/other/python3", path, str(TOOLS / "hard_disks"), ["scene"]))
        self.assertEqual(error.getvalue(), f"hard_disks: run by /other/python3, as {sys.executable} has no numpy\n")

    def test_the_installed_script_is_the_command(self):
        scripts = tomllib.loads((TOOLS / "pyproject.toml").read_text(encoding="utf-8"))["project"]["scripts"]
        self.assertEqual(scripts, {"hard-disks": "hard_disks.__main__:main"})
        self.assertTrue(callable(package_main.main))


class Commands(unittest.TestCase):
    """What a Python without numpy does as well."""

    def command(self, *words, text=""):
        code = "import sys; sys.modules['numpy'] = None; from hard_disks.commands import main; main(sys.argv[1:])"
        environment = {**os.environ, "PYTHONPATH": str(TOOLS)}
        ran = subprocess.run([sys.executable, "-c", code, *words], input=text, capture_output=True, text=True, env=environment)
        return ran.returncode, ran.stdout, ran.stderr

    def test_a_report_is_checked(self):
        status, out, _ = self.command("check", scene_file("row"), text=report_of("row"))
        self.assertEqual((status, out), (0, "walls 1  pairs 3  energy 64 changed by 0, at most 84  virial 160\n"))

    def test_a_scene_is_explained(self):
        self.assertEqual(self.command("explain", scene_file("row")), (0, "nothing is wrong with this scene\n", ""))
        status, out, error = self.command("explain", str(SCENES / "row.report"))
        self.assertEqual((status, out, error.count("\n")), (1, "", 1))

    def test_disks_that_touch_are_told_of(self):
        text = Path(scene_file("cradle")).read_text().replace("[15,", "[14,").replace("[20,", "[18,")
        with tempfile.NamedTemporaryFile("w", suffix=".toml") as file:
            file.write(text)
            file.flush()
            status, out, _ = self.command("explain", file.name)
        self.assertEqual((status, out.splitlines()[0]), (0, "nothing is wrong with this scene"))
        self.assertRegex(out, "CAUTION: gaps of 2 pairs .* limit of rounds")

    def test_a_report_leaves_a_rest(self):
        text, scene = report_of("states"), read_scene(scene_file("states"))
        at_2, at_4, at_5 = (
            dataclasses.replace(scene, end=end, disks=rows)
            for end, rows in [
                (3, ((12, 10, 1, 0, 4), (18, 10, -1, 0, 4))), (1, ((12, 10, -1, 0, 4), (18, 10, 1, 0, 4))),
                (0, ((11, 10, -1, 0, 4), (19, 10, 1, 0, 4))),
            ]
        )
        within_4 = text.index("disk 1", text.index("state 4"))
        for words, report, left in [
            ([], text, at_5), (["--tick", "2"], text, at_2), (["--tick", "4"], text, at_4),
            ([], text[:within_4], at_2), ([], text[: within_4 + 7], at_2), ([], text[: text.index("done")], at_4),
        ]:
            with self.subTest((words, report)):
                self.assertEqual(self.command("rest", scene_file("states"), *words, text=report), (0, GOES_ON + left.text(), ""))

    def test_a_rest_goes_on(self):
        status, out, _ = self.command("continue", scene_file("gas"), "--time", "3", "--every", "0.5")
        before, after = read_scene(scene_file("gas")), parse_scene(out)
        self.assertEqual((status, after.disks, after.end), (0, before.disks, 6 * after.every))
        self.assertEqual((before.goes_on, after.goes_on), (False, True))

    def test_what_cannot_be_done_is_one_line(self):
        for words, text, said in [
            (["measure", "pressure", scene_file("row")], report_of("row"), "no Python module numpy"),
            (["check", scene_file("row")], report_of("pair"), "counts|momentum"),
            (["check", scene_file("row")], "no report\n", "no line of a report"),
            (["check", scene_file("gone")], "", "No such file"),
            (["check"], "", "required: SCENE"),
            (["check", str(SCENES / "row.report")], "", "no TOML"),
            (["frob"], "", "invalid choice"),
            (["explain", scene_file("gone")], "", "No such file"),
            (["rest", scene_file("states"), "--tick", "3"], report_of("states"), "no whole state of tick 3"),
            (["rest", scene_file("states")], "", "no whole state"),
            (["rest", scene_file("fluid")], report_of("states"), "is it the report of this scene"),
            (["rest", scene_file("states")], "no report\n", "no line of a report"),
            (["continue", scene_file("gas"), "--time", "1e30"], "", "ticks"),
        ]:
            with self.subTest(words):
                status, out, error = self.command(*words, text=text)
                self.assertEqual((status, out, error.count("\n")), (2, "", 1), error)
                self.assertTrue(re.search(said, error), error)


class Documents(unittest.TestCase):
    """Over a small repository of one crate, and one document with a table."""

    def faults(self, document):
        with tempfile.TemporaryDirectory() as folder:
            top = Path(folder).resolve()
            for name, text in {
                "crates.txt": "# crates\nshapes:\n",
                "crates/shapes/src/lib.rt": "pub fn area(a: &Square) -> u64\n    ensures value { result ≡ area_of a }\n{\n}\n",
                "crates/shapes/specs/Shapes.antt": "abbrev pub area_of : Square → ℕ\n",
                "README.md": document,
            }.items():
                (top / name).parent.mkdir(parents=True, exist_ok=True)
                (top / name).write_text(text)
            return [it.split(": ", 1)[1] for it in check_docs.check(top, top / "README.md", check_docs.Sources(top))]

    def test_what_is_there_is_no_fault(self):
        table = "| Rule | Contract |\n|---|---|\n| all | `area`: `value` in `shapes/lib.rt`; `area_of` in `shapes/Shapes` |\n"
        self.assertEqual(self.faults("# A `b` c\n[a](crates.txt) [b](#a-b-c) `crates/shapes/src/lib.rt`\n" + table), [])

    def test_each_fault_is_told(self):
        row = "| Contract |\n|---|\n| {} |\n"
        for text, fault in [
            ("[a](gone.md)", "the link gone.md: there is no gone.md"),
            ("# a\n[a](#b)", "the link #b: README.md has no such heading"),
            ("`crates/gone/src`", "the path crates/gone/src isn't there"),
            (row.format("`gone`"), "no crate defines gone"),
            (row.format("`area`: `gone`"), "area has no clause gone"),
            (row.format("`area` in `shapes/Shapes`"), "area isn't defined in shapes/Shapes"),
            (row.format("`area` in `shapes/gone.rt`"), "no file shapes/gone.rt that defines anything"),
            ("| Crate |\n|---|\n| `gone` |\n", "no crate gone"),
            ("TODO", "something is left to do"),
        ]:
            with self.subTest(fault):
                self.assertIn(fault, self.faults(text))


class Returns(unittest.TestCase):
    def test_the_sources_bounds_are_those_that_are_named(self):
        self.assertEqual([*check_returns.faults_of_sources()], [])

    def test_a_bound_is_found_where_it_stands(self):
        for text, found in [
            ("use std::sync::Wait;\n// A `Wait`.\nfn f() {}\n", []),
            ("fn f() {}\nfn g<R: Wait>(\n", [(2, "g", "Wait")]),
            ("fn f<\n    R: Abort,\n", [(2, "f", "Abort")]),
            ("impl<R: Wait> Sink for Looking<R> {\n", [(1, "Looking", "Wait")]),
            ("fn f() {}\nimpl<R: Wait> Looking<R> {\n", [(2, None, "Wait")]),
        ]:
            with self.subTest(text):
                self.assertEqual([*check_returns.bounds_in(text)], found)

    def test_what_the_checks_say_is_compared(self):
        for name, words, count in [
            ("live_progress", "functions=20 may-wait=8 sum=1", 0),
            ("live_progress", "functions=20 may-wait=9 sum=1", 1),
            ("region_view", "functions=9 may-wait=1 sum=1", 1),
            ("hard_disks_program", "functions=12 main=Threads+Wait may-wait=1 sum=1", 0),
            ("hard_disks_program", "functions=12 main=Net+Threads may-wait=1 sum=1", 1),
            ("hard_disks_program", "functions=12 main=Threads+Wait may-wait=2 sum=1", 1),
            ("worker_tests: its tests", "functions=3 may-wait=5 main=Abort sum=1", 0),
        ]:
            with self.subTest(words):
                text = f"== {name}\nlogic=proved {words}\n"
                self.assertEqual(len([*check_returns.faults_of_checks(text)]), count)


if __name__ == "__main__":
    unittest.main()

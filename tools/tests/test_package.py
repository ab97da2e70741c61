#!/usr/bin/env python3
"""Tests of how the package hard_disks reads, makes, converts and draws, and of its commands.

    python3 tools/tests/test_package.py

What can't be tested, without a library or the program, is said."""
import contextlib
import inspect
import io
import os
import pty
import subprocess
import sys
import tempfile
import time
import unittest
from dataclasses import replace
from importlib.util import find_spec
from pathlib import Path
from unittest import mock

from places import TOOLS
from physics_scenes import NAMES, SCENES, end_of, fluid, main, needs, np, read_text, report_of, run_of, scene_of

from hard_disks.columns import column
from hard_disks.commands import MEASURES
from hard_disks.commands import main as command
from hard_disks.commands import names_of
from hard_disks.converting import FORMATS, write_csv, write_xyz
from hard_disks.fitting import fit
from hard_disks.importing import corner, read_file
from hard_disks.making import make
from hard_disks.measuring import notes_together
from hard_disks.plotting import AXES, Columns, curves_by_panel, joined, read_tables
from hard_disks.reports import Collisions, collision_numbers
from hard_disks.runs import Frame, Sample, read
from hard_disks.sampling import Definition, OfErrors, Stated, sampling
from hard_disks.scene_text import parse_scene, read_scene
from hard_disks.scenes import Refused
from hard_disks.bonds import bond_order
from hard_disks.theory import whole_fraction


class Reading(unittest.TestCase):
    def test_places_between_collisions_are_exact(self):
        for name in NAMES:
            with self.subTest(name):
                frames = list(run_of(name).frames())
                ticks = [it.tick for it in frames]
                whole = list(run_of(name).followed(ticks))
                self.assertEqual([it.tick for it in whole if isinstance(it, Frame)], ticks)
                followed = [it for it in whole if isinstance(it, Sample)]
                # A state has the velocities from before the events of its tick, and so has a frame.
                self.assertEqual([it.tick for it in followed], ticks)
                for found, wanted in zip(followed, frames):
                    self.assertTrue((found.rows == wanted.rows).all())

    def test_scene_and_report_in_one_stream(self):
        text = (SCENES / "pair.toml").read_text() + "===\n" + (SCENES / "pair.report").read_text()
        run = read(io.StringIO(text))
        self.assertEqual(run.scene, read_scene(SCENES / "pair.toml"))
        start, end = run.frames()
        self.assertEqual((start.tick, start.rows.tolist()), (0, [[10, 10, 1, 0], [20, 10, -1, 0]]))
        self.assertEqual((end.tick, end.rows.tolist()), (5, [[11, 10, -1, 0], [19, 10, 1, 0]]))

    def test_a_stream_is_read_once(self):
        run = read_text((SCENES / "pair.report").read_text(), read_scene(SCENES / "pair.toml"))
        list(run.frames())
        with self.assertRaisesRegex(Refused, "read already"):
            list(run.frames())

    def test_states_do_without_collisions(self):
        whole = (SCENES / "states.report").read_text()
        states = "".join(it for it in whole.splitlines(True) if not it[0].isdigit())
        scene = read_scene(SCENES / "states.toml")
        frames = [[(it.tick, it.rows.tolist()) for it in read_text(text, scene).frames()] for text in (whole, states)]
        self.assertEqual(*frames)
        with self.assertRaisesRegex(Refused, "lacks collisions"):
            list(read_text(states, scene).events())

    def test_some_missing_collisions_are_refused_for_states_too(self):
        scene = read_scene(SCENES / "row.toml")
        report = (SCENES / "row.report").read_text().split("\n", 1)[1]
        with self.assertRaisesRegex(Refused, "lacks collisions"):
            list(read_text(report, scene).frames())

    def test_what_is_no_report_of_the_scene_is_refused(self):
        states, pair = [(SCENES / f"{it}.report").read_text() for it in ("states", "gas")]
        scene = read_scene(SCENES / "states.toml")
        summary = "done 5\nwalls 0\npairs 1\nmomentum 0 0\nenergy 2 2\n"
        limit = "limit rounds 0 1 wall 0 2\nwalls 0\npairs 0\n"
        falls = end_of(scene, ["4 0 wall 0 0 1 0", "3 0 wall 0 1 -1 0"])
        for text, said in [(pair, "the scene hasn't"), (summary, "summary"), (limit, "limit of rounds"),
                           (falls, "ticks fall"), (states.replace("done 5", "done 6"), "ends at tick 6")]:
            with self.subTest(said), self.assertRaisesRegex(Refused, said):
                list(read_text(text, scene).followed([]))

    def test_lines_are_read_alike_without_numpy(self):
        text = "1 0 pair 0 12 -3 4 5 -6\n1 0 wall 7 3 -8 9\n2 1 wall 0 0 1 2\n"
        wanted = [(1, 0, -1, 0, 12, -3, 4, 5, -6), (1, 0, 3, 7, -1, -8, 9, 0, 0), (2, 1, 0, 0, -1, 1, 2, 0, 0)]
        for numpy in (np, None):
            with mock.patch("hard_disks.reports.numpy", numpy):
                self.assertEqual(list(Collisions(collision_numbers(text)).rows()), wanted)

    def test_a_line_takes_few_microseconds(self):
        line = "123456 0 pair 123 99 -1234 5678 -9012 3456\n"
        scene, lines = scene_of([(0, 0, 1, 1)] * 128, end=200_000), 200_000
        text = end_of(scene, []).replace("pairs 0", f"pairs {lines}")
        begun = time.process_time()
        found = sum(len(it) for it in read_text(line * lines + text, scene).events())
        self.assertEqual(found, lines)
        # It takes 1 to 2; a machine where others run may need more.
        self.assertLess((time.process_time() - begun) / lines, 6e-6)


class Making(unittest.TestCase):
    def test_each_scene_is_valid_and_as_asked_for(self):
        mixture = ((1.0, 0.7), (1.4, 0.3))
        for count, phi, sizes, lattice in [
            (1, 0.3, ((1.0, 1.0),), "hex"), (2, 0.2, ((1.0, 1.0),), "hex"), (2_000, 0.5, ((1.0, 1.0),), "hex"),
            (500, 0.8, ((1.0, 1.0),), "hex"), (500, 0.7, ((1.0, 1.0),), "square"), (300, 0.45, ((1.0, 1.0),), "random"),
            (300, 0.45, mixture, "random"), (300, 0.4, mixture, "hex"), (10_000, 0.3, ((1.0, 1.0),), "square"),
        ]:
            with self.subTest((count, phi, lattice)):
                scene = make(count, phi, sizes, lattice=lattice, every=0.5)
                self.assertAlmostEqual(scene.phi / phi, 1, delta=0.01)
                self.assertTrue(2**29 < max(scene.width, scene.height) <= 2**30)
                self.assertEqual(scene.end, 80 * scene.every)
                self.assertEqual(parse_scene(scene.text()), scene)
                self.check_valid(np.array(scene.disks), scene)
                if count > 1:
                    self.assertEqual(np.sum(scene.disks, axis=0)[2:4].tolist(), [0, 0])

    def check_valid(self, disks, scene):
        """Inside, slow enough, of even sizes, and no two overlap."""
        radii = disks[:, 4] // 2
        self.assertTrue((disks[:, :2] >= radii[:, None]).all())
        self.assertTrue((disks[:, :2] <= np.array([scene.width, scene.height]) - radii[:, None]).all())
        self.assertLess(np.abs(disks[:, 2:4]).max(), scene.speed_limit / 4)
        self.assertTrue((disks[:, 4] % 2 == 0).all() and disks[:, 4].max() == scene.diameter)
        for i in range(min(len(disks), 300)):
            squares = ((disks[i + 1:, :2] - disks[i, :2]) ** 2).sum(axis=1)
            self.assertTrue((squares >= (radii[i + 1:] + radii[i]) ** 2).all())

    def test_walls_take_what_scaled_particle_theory_says(self):
        # Of 5,000 disks at 0.2, 0.35, 0.5 and 0.6 the inside had 0.2019(2), 0.3521(2), 0.5053(4) and 0.6035(3).
        for whole, inside in [(0.2, 0.2019), (0.35, 0.3521), (0.5, 0.5053), (0.6, 0.6035)]:
            self.assertAlmostEqual(whole_fraction(inside, 5_000, [(1.0, 1.0)]), whole, delta=0.002)
        self.assertAlmostEqual(whole_fraction(0.5, 10**9, [(1.0, 1.0)]), 0.5, delta=1e-5)

    def test_a_rest_is_measured_from_its_start(self):
        scene = scene_of([(400, 500, 3, 0)])
        self.assertEqual([sampling(replace(scene, goes_on=it)).start for it in (False, True)], [20, 0])

    def test_sizes_have_their_shares(self):
        sizes = np.array(make(1_000, 0.3, ((1.0, 0.7), (1.4, 0.3))).disks)[:, 4]
        small, great = np.unique(sizes)
        self.assertEqual(((sizes == small).sum(), (sizes == great).sum()), (700, 300))
        self.assertAlmostEqual(great / small, 1.4, delta=1e-6)

    def test_what_does_not_fit_is_refused(self):
        for words, said in [
            ((1_000, 0.89), "hex lattice holds"), ((0, 0.5), "disks, not 0"), ((10, 1.5), "no packing fraction"),
            ((10, 0.3, ((1.0, 1.0), (1.4, 0.001))), "too few"), ((10, 0.3, ((0.0, 1.0),)), "above 0"),
            ((2, 0.1, ((1.0, 1.0), (1e-6, 1.0))), "too small"),
        ]:
            with self.subTest(said), self.assertRaisesRegex(Refused, said):
                make(*words)

    def test_disks_of_any_units_are_fitted(self):
        # A triangle of disks that nearly touch each other and two walls, in units that no power of 2 divides.
        size, unit = 0.3, 2**30 / 1.7
        places = np.array([[size / 2, size / 2], [3 * size / 2, size / 2], [size, size / 2 + size * np.sqrt(3) / 2]])
        size *= 0.999
        disks = np.column_stack([places, [[0.1, 0], [0, -1e-3], [-0.1, 1e-3]], [size, size, size]])
        scene = fit(1.7, 1.1, disks, time=2, every=0.5)
        self.check_valid(np.array(scene.disks), scene)
        found = np.array(scene.disks, float)
        np.testing.assert_allclose(found[:, :2] / unit, places, atol=1e-8)
        np.testing.assert_allclose(found[:, 4] / unit, size, atol=1e-8)
        np.testing.assert_allclose(found[:, 2:4] / found[0, 2], disks[:, 2:4] / 0.1, atol=1e-4)
        self.assertEqual((scene.width, scene.end), (2**30, 4 * scene.every))

    def test_disks_that_touch_get_room_and_run(self):
        from hard_disks.making import hexagonal

        shape = hexagonal(30)
        chance = np.random.default_rng(1)
        disks = np.column_stack([shape.sites, chance.normal(size=shape.sites.shape), np.ones(len(shape.sites))])
        scene = fit(shape.width, shape.height, disks, time=0.1)
        self.assertAlmostEqual(scene.sigma / scene.width * shape.width, 1 - 5e-4, delta=1e-6)
        self.assertIn(f"done {scene.end}\n", report_of(scene))

    def test_speeds_of_any_size_are_fitted(self):
        rows = [[2, 3, 0, 1.5, 1], [7, 8, -1, 0, 1]]
        for speed in (1e300, 1e-300, 5e-324 / 1.5):
            faster = [[x, y, vx * speed, vy * speed, size] for x, y, vx, vy, size in rows]
            with self.subTest(speed):
                self.assertEqual(fit(10, 10, faster).disks[0][3] > 0, True)
        self.assertEqual(fit(10, 10, [[x, y, 1e300 * vx, 1e300 * vy, size] for x, y, vx, vy, size in rows]), fit(10, 10, rows))

    def test_one_fast_disk_among_slow_ones_keeps_the_limit(self):
        scene = fit(100, 100, [[i % 10 * 10 + 5, i // 10 * 10 + 5, 0, float(i == 0), 1] for i in range(100)])
        self.assertLess(4 * scene.disks[0][3], scene.speed_limit + 4)
        self.assertLessEqual(scene.speed_limit, 2**20)

    def test_what_cannot_be_fitted_is_refused(self):
        for words, said in [
            ((1, 1, []), "disks, not 0"), ((1, 1, [[0.5, 0.5, 1, 0, 0]]), "above 0"), ((1, 1, [[0.5, np.nan, 1, 0, 1]]), "finite"),
            ((0, 1, [[0.5, 0.5, 1, 0, 1]]), "above 0"), ((1, 1, [[0.5, 0.5, 0, 0, 1]]), "no disk moves"),
            ((1, 1, [[0.5, 0.5, 1, 0, 1e-6]]), "too small"),
        ]:
            with self.subTest(said), self.assertRaisesRegex(Refused, said):
                fit(*words)

    def test_the_program_takes_what_is_made(self):
        for sizes in (((1.0, 1.0),), ((1.0, 0.7), (1.4, 0.3))):
            scene, report = fluid(200, 0.4, 1.0, None, sizes)
            self.assertIn(f"done {scene.end}\n", report)


@needs("ase")
class Ase(unittest.TestCase):
    def written(self, name, form):
        ending = "traj" if form == "ase" else form
        path = Path(self.enterContext(tempfile.TemporaryDirectory())) / f"frames.{ending}"
        FORMATS[form](run_of(name), path)
        return path

    def test_frames_are_read_back_with_velocities(self):
        from ase.io import read as ase_read

        for name in NAMES:
            for form in ("xyz", "ase"):
                with self.subTest((name, form)):
                    frames, scene = list(run_of(name).frames()), run_of(name).scene
                    back = ase_read(self.written(name, form), index=":")
                    self.assertEqual(len(back), len(frames))
                    for atoms, frame in zip(back, frames):
                        wanted = scene.reduced(frame.rows)
                        np.testing.assert_allclose(atoms.positions[:, :2], wanted[:, :2], atol=1e-7)
                        # They are there once, as long as a file is by its numbers.
                        self.assertEqual("velo" in atoms.arrays, "momenta" not in atoms.arrays)
                        velocities = atoms.arrays["velo"] if form == "xyz" else atoms.get_velocities()
                        np.testing.assert_allclose(velocities[:, :2], wanted[:, 2:], atol=1e-7)
                        sizes = sorted({it[4] for it in scene.disks})
                        self.assertEqual(atoms.get_tags().tolist(), [sizes.index(it[4]) for it in scene.disks])
                    if form == "xyz":
                        sizes = back[-1].arrays["radius"] * 2 * scene.sigma
                        np.testing.assert_allclose(sizes, [it[4] for it in scene.disks], rtol=1e-6)

    def test_written_frames_are_fitted(self):
        run = run_of("fluid")
        *_, last = run.frames()
        size = str(run.scene.sigma / run.scene.sigma)
        for form, words in [("xyz", []), ("ase", ["--diameter", size]), ("dump", ["--diameter", size]), ("gsd", [])]:
            if form == "gsd" and not find_spec("gsd"):
                continue
            with self.subTest(form):
                out = io.StringIO()
                with contextlib.redirect_stdout(out), contextlib.redirect_stderr(io.StringIO()):
                    command(["fit", str(self.written("fluid", form)), *words, "--time", "1"])
                found, share = parse_scene(out.getvalue()), max(run.scene.width, run.scene.height) / 2**30
                rows = np.array(found.disks)
                np.testing.assert_allclose(rows[:, :2] * share / run.scene.sigma, last.rows[:, :2] / run.scene.sigma, atol=1e-5)
                wanted = last.rows[:, 2:] / np.sqrt((last.rows[:, 2:] ** 2).mean())
                np.testing.assert_allclose(rows[:, 2:4] / found.speed, wanted, atol=2e-3)

    def test_a_summary_is_refused(self):
        scene = scene_of([(400, 500, 3, 0)])
        with self.assertRaisesRegex(Refused, "no state"):
            write_xyz(read_text("done 100\nwalls 0\npairs 0\nmomentum 3 0\nenergy 9 9\n", scene), os.devnull)


# Two disks of the diameters 1 and 2 in a box that is centred at 0, one of them an image away, and one over the edge.
DATA = """LAMMPS data

3 atoms
1 atom types
-5 5 xlo xhi
-4 4 ylo yhi
-0.5 0.5 zlo zhi

Atoms # sphere

2 1 2 1 11 -1 0
1 1 1 1 -2 1 0
3 1 1 1 0 3.8 0

Velocities

1 3 4 0 0 0 0
3 1 1 0 0 0 0
2 0 -2 0 0 0 0
"""


class OwnFiles(unittest.TestCase):
    def file(self, text, ending=".data"):
        path = Path(self.enterContext(tempfile.TemporaryDirectory()), f"own{ending}")
        path.write_text(text)
        return str(path)

    def test_data_of_lammps_is_read_with_its_corner_and_diameters(self):
        found = read_file(self.file(DATA))
        wanted = [[3, 5, 3, 4, 1], [6, 3, 0, -2, 2], [5, 7.8, 1, 1, 1]]
        np.testing.assert_allclose(found.rows(), wanted)
        np.testing.assert_allclose(found.sides, [10, 8])
        np.testing.assert_allclose(found.cut(-3, 3, -2, 4).rows(), [[1, 3, 3, 4, 1], [4, 1, 0, -2, 2]])
        self.assertEqual(len(found.cut(-3, 3, -1.9, 4).rows()), 1)
        for window, said in [((-6, 1, 0, 1), "beyond the box"), ((0, 1, 0, 1), "no disk")]:
            with self.assertRaisesRegex(Refused, said):
                found.cut(*window)

    def test_where_there_are_no_velocities_they_are_maxwells(self):
        text = DATA.split("Velocities")[0].replace("# sphere", "").replace(" 2 1 11 -1", " 11 -1").replace(" 1 1 1 -2", " 1 -2")
        found = read_file(self.file(text.replace("3 1 1 1 0", "3 1 0")))
        self.assertIsNone(found.velocities)
        first, second, same = (found.moving(seed).velocities for seed in (1, 2, 1))
        np.testing.assert_array_equal(first, same)
        self.assertFalse((first == second).any())
        np.testing.assert_allclose(first.sum(axis=0), 0, atol=1e-12)
        with self.assertRaisesRegex(Refused, "give one by --diameter"):
            found.moving(1).rows()

    def test_boxes_that_are_centred_begin_at_their_corner(self):
        for places, wanted in [([[-4, 1], [4, 0]], [-5, -4]), ([[1, 1], [4, 3]], [0, 0]), ([[-1, 1], [9, 7]], [0, 0])]:
            np.testing.assert_array_equal(corner(np.array(places), np.array([10, 8])), wanted)

    def test_what_is_no_data_is_refused(self):
        for text, said in [("a\n", "no data of LAMMPS"), (DATA.replace("sphere", "hybrid"), "not hybrid"), (DATA.replace("11 -1", "x -1"), "'x'")]:
            with self.assertRaisesRegex(Refused, said):
                read_file(self.file(text))


@needs("pandas")
class Pandas(unittest.TestCase):
    def test_collisions_are_whole_numbers(self):
        import pandas
        for name in NAMES:
            with self.subTest(name), tempfile.NamedTemporaryFile(suffix=".csv") as file:
                write_csv(run_of(name), file.name)
                back = pandas.read_csv(file.name, dtype=dict.fromkeys(
                    ["tick", "round", "first", "second", "side", "vx1", "vy1", "vx2", "vy2"], "Int64"))
                wanted = run_of(name).collisions()
                pandas.testing.assert_frame_equal(back, wanted, check_dtype=len(wanted) > 0)

    def test_rows_by_hand(self):
        with tempfile.NamedTemporaryFile(suffix=".csv") as file:
            write_csv(run_of("row"), file.name)
            self.assertEqual(Path(file.name).read_text().splitlines(), [
                "tick,round,kind,first,second,side,vx1,vy1,vx2,vy2",
                "4,0,pair,0,1,,0,0,8,0",
                "18,0,pair,1,2,,0,0,8,0",
                "30,0,pair,2,3,,0,0,8,0",
                "37,0,wall,3,,1,-8,0,,",
            ])


class Commands(unittest.TestCase):
    def command(self, *words, report="states"):
        """The status, the output, and what was said."""
        out, error, status = io.StringIO(), io.StringIO(), 0
        text = report if "\n" in report else (SCENES / f"{report}.report").read_text()
        with mock.patch("sys.stdin", io.StringIO(text)), contextlib.redirect_stdout(out), contextlib.redirect_stderr(error):
            try:
                command([str(it) for it in words])
            except SystemExit as end:
                status = end.code or 0
        return status, out.getvalue(), error.getvalue()

    def test_each_command_has_help(self):
        for words in [[], ["scene"], ["fit"], ["explain"], ["rest"], ["continue"], ["measure"], ["plot"], ["draw"], ["convert"], ["check"], ["equation"], ["compare"]]:
            status, out, _ = self.command(*words, "--help")
            self.assertEqual((status, out.startswith("usage: python3 -m hard_disks")), (0, True), words)

    def test_a_table_is_fitted(self):
        table = "diameter,x,y,vx,vy,note\n1,2,3,0,1.5,a\n2,7,8,-1,0,b\n"
        status, out, error = self.command("fit", "--width", "10", "--height", "10", "--time", "1", report=table)
        self.assertEqual((status, error), (0, ""))
        self.assertEqual(parse_scene(out), fit(10, 10, [[2, 3, 0, 1.5, 1], [7, 8, -1, 0, 2]], time=1))
        for text, said in [("x,y,vx\n", "no vy, diameter"), (table + "1,2,3,a,5,c\n", "line 4: .*'a'"), (table + "1,2\n", "line 4")]:
            status, out, error = self.command("fit", "--width", "10", "--height", "10", report=text)
            self.assertEqual((status, out), (2, ""))
            self.assertRegex(error, said)

    def test_each_measure_writes_a_table(self):
        scene = SCENES / "fluid.toml"
        # The others compare states, of which this report has but one.
        for name in set(MEASURES) - {"msd", "vacf", "scatter"}:
            with self.subTest(name):
                status, out, error = self.command("measure", name, scene, "--margin", "4", report="fluid")
                lines = [it for it in out.splitlines() if not it.startswith("#")]
                self.assertEqual((status, error), (0, ""))
                self.assertEqual({it.count(",") for it in lines}, {lines[0].count(",")})
                self.check_columns(lines[0].split(","))
                self.assertIn("along the walls are left out", out)

    def check_columns(self, names):
        """That errors stand beside what they are of, and what is drawn has a label, or another one's panel."""
        for it in map(column, names):
            self.assertTrue(not it.error_of or it.error_of in names, it)
            self.assertTrue(not it.is_drawn or it.label or it.panel or it.name in AXES, it)

    def test_each_measure_takes_the_options_that_are_stated(self):
        for name, kind in MEASURES.items():
            with self.subTest(name):
                takes = dict(inspect.signature(kind.load()).parameters)
                stated = {"most": kind.most, "width": kind.has_width, "wave": kind.has_wave, "series": kind.has_series}
                self.assertEqual({"sampling", *(option for option, has in stated.items() if has)}, set(takes))
                if kind.most and takes["most"].default is not None:
                    self.assertIn(f"({takes['most'].default:g})", kind.most)

    def test_several_measures_are_had_in_one_pass(self):
        scene, names = SCENES / "fluid.toml", ["pressure", "gr", "psi6"]
        words = [scene, "--margin", "4"]
        status, out, error = self.command("measure", ",".join(names), *words, "--width", "gr=0.1", report="fluid")
        self.assertEqual((status, error), (0, ""))
        singly = [
            self.command("measure", name, *words, *(["--width", "0.1"] if name == "gr" else []), report="fluid")[1]
            for name in names
        ]
        self.assertEqual(out, "\n".join(singly))
        folder = Path(self.enterContext(tempfile.TemporaryDirectory()), "tables")
        self.command("measure", "pressure,gr,psi6", *words, "--width", "0.1", "-o", folder, report="fluid")
        self.assertEqual([(folder / f"{name}.csv").read_text() for name in names], singly)

    def test_several_runs_give_means_and_their_spread(self):
        folder, values = Path(self.enterContext(tempfile.TemporaryDirectory())), []
        for seed in (1, 2, 3):
            scene, report = fluid(200, 0.4, 1.0, 0.25, seed=seed)
            (folder / f"{seed}.toml").write_text(scene.text())
            (folder / f"{seed}.report").write_text(report)
            out = self.command("measure", "pressure", folder / f"{seed}.toml", report=report)[1]
            values.append(self.row(out)["Z"])
        scenes = [folder / f"{seed}.toml" for seed in (1, 2, 3)]
        status, out, error = self.command("measure", "pressure,gr", *scenes, "--most", "3")
        self.assertEqual((status, error), (0, ""))
        # What one run says of its errors isn't said of several.
        self.assertNotIn("errors are", out)
        found = self.row(out)
        self.assertAlmostEqual(found["Z"], np.mean(values), delta=1e-5)
        self.assertAlmostEqual(found["Z_error"], np.std(values, ddof=1) / np.sqrt(3), delta=1e-5)

    def test_several_runs_keep_the_notes_of_all_but_not_those_on_errors(self):
        runs = [[Definition("Z is that"), OfErrors("errors: by 3"), f"seed {seed}", Stated("D", seed, 0.1)] for seed in (1, 2)]
        self.assertEqual(list(map(str, notes_together(runs))), ["Z is that", "D = 1.5 +/- 0.5"])

    @staticmethod
    def row(text):
        """The numbers of the first row of a table, by their names."""
        names, row = [it for it in text.splitlines() if not it.startswith("#")][:2]
        return dict(zip(names.split(","), map(float, row.split(","))))

    @needs("matplotlib")
    def test_pictures_are_drawn(self):
        folder, scene = Path(self.enterContext(tempfile.TemporaryDirectory())), SCENES / "states.toml"
        gas = SCENES / "gas.toml"
        for words, name, begins in [
            (["draw", scene, "--tick", "3"], "a.svg", b"<?xml"), (["draw", scene], "a.png", b"\x89PNG"),
            (["draw", scene, "--movie", "--dpi", "40"], "a.html", b""), (["draw", scene, "--movie", "--fps", "2"], "a.gif", b"GIF8"),
            (["draw", scene, "--window", "1:4,0:3", "--dpi", "50"], "b.png", b"\x89PNG"), (["draw", scene], "a.pdf", b"%PDF"),
        ]:
            self.assertEqual(self.command(*words, "-o", folder / name), (0, "", ""))
            self.assertTrue((folder / name).read_bytes().startswith(begins))
        for colour in ("psi6", "direction", "neighbours"):
            self.assertEqual(self.command("draw", gas, "--colour", colour, "-o", folder / "b.svg", report="gas"), (0, "", ""))
        first = (folder / "b.svg").read_bytes()
        self.command("draw", gas, "--colour", "neighbours", "-o", folder / "c.svg", report="gas")
        self.assertEqual(first, (folder / "c.svg").read_bytes())

    @needs("matplotlib")
    def test_disks_at_a_wall_have_neighbours_behind_it(self):
        from hard_disks.drawing import order_in_box

        scene = read_scene(SCENES / "fluid.toml")
        rows = np.array(scene.disks)
        # Every disk has six neighbours on average, but those at the rim of all.
        self.assertLess(bond_order(rows[:, :2])[1].mean(), 5.95)
        self.assertAlmostEqual(order_in_box(scene, rows)[1].mean(), 6, delta=0.02)

    @needs("matplotlib")
    def test_each_table_is_plotted(self):
        folder = Path(self.enterContext(tempfile.TemporaryDirectory()))
        scene, report = fluid(200, 0.4, 4.0, 0.25)
        (folder / "fluid.toml").write_text(scene.text())
        words = ["measure", ",".join(MEASURES), folder / "fluid.toml", "--most", "gr=2,msd=1,vacf=1"]
        status, out, error = self.command(*words, "-o", folder, report=report)
        self.assertEqual((status, error), (0, ""))
        drawn = [name for name in MEASURES if name != "psi6"]
        for name in drawn:
            with self.subTest(name):
                (table,) = read_tables(io.StringIO((folder / f"{name}.csv").read_text()), name)
                self.check_columns(table.values)
                words = ["plot", folder / f"{name}.csv", "-o", folder / f"{name}.svg"]
                self.assertEqual(self.command(*words), (0, "", ""))
        first = (folder / "gr.svg").read_bytes()
        self.command("plot", folder / "gr.csv", "-o", folder / "gr.svg")
        self.assertEqual(first, (folder / "gr.svg").read_bytes())
        series = [name for name, kind in MEASURES.items() if kind.has_series]
        tables = self.command("measure", ",".join(series), folder / "fluid.toml", "--series", report=report)[1]
        for ending, begins in (("png", b"\x89PNG"), ("pdf", b"%PDF")):
            path = folder / f"all.{ending}"
            self.assertEqual(self.command("plot", *(folder / f"{name}.csv" for name in drawn), "-o", path, "--dpi", "30"), (0, "", ""))
            self.assertTrue(path.read_bytes().startswith(begins))
            words = ["plot", "-o", path, "--x", "0.5:3", "--log", "y", "--y", "Z=1:3", "--y", "0.1:9", "--dpi", "30", "--panels", "Z,order"]
            self.assertEqual(self.command(*words, report=tables), (0, "", ""))
            self.assertTrue(path.read_bytes().startswith(begins))

    def test_files_of_one_name_are_told_apart(self):
        self.assertEqual(names_of(["a/gr.csv", "a/sk.csv"]), ["gr", "sk"])
        self.assertEqual(names_of(["a/gr.csv", "b/gr.csv"]), ["a/gr", "b/gr"])

    def test_tables_of_one_row_are_one_curve(self):
        tables = [
            Columns(name, {"phi": np.array([phi]), "Z": np.array([z]), "Z_error": np.array([0.1]), "Z_virial": np.array([z + 0.1])})
            for name, phi, z in [("b", 0.4, 3.0), ("a", 0.2, 1.5)]
        ]
        panels = curves_by_panel(joined(tables))
        self.assertEqual(list(panels), [("phi", "Z"), ("phi", "Z by virial")])
        measured, theory = panels["phi", "Z"]
        self.assertEqual((measured.x.tolist(), measured.y.tolist()), ([0.2, 0.4], [1.5, 3.0]))
        self.assertEqual((theory.is_theory, theory.y.tolist()), (True, [1.6, 3.1]))
        np.testing.assert_allclose(panels["phi", "Z by virial"][0].y, [-100 * 0.1 / 1.6, -100 * 0.1 / 3.1])

    def test_a_column_has_its_own_errors(self):
        text = "# measure x\nphi,Z,Z_error,Z_error_given_phi,Z_wall\n0.2,1.5,0.2,unknown,1.4\n\n# another\ntime,C\n0,1\n1,0.5\n"
        first, second = read_tables(io.StringIO(text), "x")
        self.assertTrue(np.isnan(first.error("Z")))
        self.assertIsNone(first.error("Z_wall"))
        self.assertEqual(first.drawn(), ["Z", "Z_wall"])
        self.assertEqual((second.axis(), second.values["C"].tolist()), ("time", [1, 0.5]))

    def test_bad_input_is_refused_in_one_line_with_status_2(self):
        """Numbers without bounds, texts that are no scenes and no reports, and files that aren't there."""
        folder = Path(self.enterContext(tempfile.TemporaryDirectory()))
        good, head = (SCENES / "states.toml").read_text(), "x,y,vx,vy,diameter\n"
        number = 0

        def file(text):
            nonlocal number
            number += 1
            path = folder / f"{number}.toml"
            path.write_bytes(text if isinstance(text, bytes) else text.encode())
            return path

        scene, measure, fitting = SCENES / "states.toml", ["measure", "pressure"], ["fit", "--width", "10", "--height", "10"]
        many, deep = "9" * 5_000, "[" * 20_000
        for words, report, said in [
            # Words
            (["scene", "--phi", "0.5", "--sizes", "1:inf"], "states", "isn't above 0"),
            (["scene", "--phi", "0.5", "--sizes", "1:nan,2"], "states", "isn't above 0"),
            (["scene", "--phi", "0.5", "--sizes", "1:1e308,2:1e308"], "states", "from 1e-6"),
            (["scene", "--phi", "0.5", "--every", "1e308"], "states", "ticks"),
            (["equation", "--program", "/bin/false", "--phi", "0.3", "--disks", "100", "--time", "1"], "states", "breaks off"),
            (["scene", "--phi", "0.5", "--every", "1e-300"], "states", "less than a tick"),
            (["scene", "--phi", "0.5", "--time", "1e308", "--every", "1"], "states", "ticks"),
            (["scene", "--phi", "0.5", "--disks", many], "states", "isn't a whole number"),
            (["scene", "--phi", "0.5", "--disks", "1e3"], "states", "isn't a whole number"),
            (["scene", "--phi", "0.5", "--seed", "-1"], "states", "isn't a whole number"),
            (["scene", "--phi", "1e-300"], "states", "too small"),
            (["scene", "--phi", "\u0660"], "states", "isn't above 0"),
            (["scene"], "states", "--phi"),
            (["scene", "--phi", "0.5", "--phi-inside", "0.5"], "states", "not allowed with"),
            (["scene", "--phi-inside", "1.5"], "states", "no packing fraction"),
            (["continue", scene, "--time", "1e300"], "states", "ticks"),
            ([*measure, scene, "--from", "1e308"], "states", "ticks"),
            ([*measure, scene, "--until", "1e308"], "states", "ticks"),
            ([*measure, scene, "--margin", "1e308"], "states", "leaves nothing"),
            ([*measure, scene, "--blocks", many], "states", "isn't a whole number"),
            ([*measure, scene, "--most", "3"], "states", "take it"),
            (["measure", "pressure,pressure", scene], "states", "twice"),
            (["measure", "pressure,frob", scene], "states", "no measure 'frob'"),
            (["measure", "gr", scene, "--series"], "states", "no series of gr"),
            (["measure", "gr", scene, "--most", "1e308"], "states", "too small"),
            (["measure", "msd", scene, "--most", "1e308"], "states", "ticks"),
            (["measure", "speeds", scene, "--width", "1e-300"], "states", "bins"),
            (["draw", scene, "--tick", "1.5", "-o", "a.png"], "states", "isn't a whole number"),
            (["draw", scene, "-o", folder / "gone" / "a.png"], "states", "No such file"),
            (["draw", scene, "-o", "a.png", "--window", "0:99,0:1"], "states", "isn't a part of the box"),
            (["draw", scene, "-o", "a.png", "--window", "1,0:1"], "states", "LEFT:RIGHT|FROM:TO"),
            (["draw", scene, "-o", "a.png", "--fps", "3"], "states", "--movie isn't there"),
            (["draw", scene, "-o", "a.png", "--dpi", "1e9"], "states", "isn't a whole number"),
            (["plot", "-o", "a.gif"], "r,g\n1,2\n", "doesn't end in"),
            (["plot", "-o", "a.png", "--log", "x", "--x", "0:2"], "r,g\n1,2\n", "begins above 0"),
            (["plot", "-o", "a.png", "--x", "a\n:2"], "r,g\n1,2\n", "bounds|FROM"),
            (["plot", "-o", "a.png"], "\n", "no table"),
            (["plot", "-o", "a.png"], "r,g\n1\n", "other lengths"),
            (["plot", "-o", "a.png"], "a,b\n1,2\n", "none of the columns"),
            (["plot", "-o", "a.png"], "r,g\n1,2\n\n\0", "a table has no rows|NUL"),
            (["plot", "-o", "a.png", "--x", "nan:2"], "r,g\n1,2\n", "FROM:TO|bounds"),
            (["plot", folder / "gone.csv", "-o", "a.png"], "states", "No such file"),
            # Scenes
            ([*measure, file(f"end = {many}\n")], "states", "64 bits"),
            ([*measure, file(f"disks = {deep}")], "states", "brackets"),
            ([*measure, file(b"\xff\xfe" + good.encode("utf-16-le"))], "states", "UTF-8"),
            ([*measure, file("")], "states", "missing"),
            ([*measure, file(good.replace("[10,", "[10.5,"))], "states", "disk 0"),
            ([*measure, file(good.replace("[10,", f"[{'9' * 19},"))], "states", "64 bits"),
            ([*measure, file(good.replace("disks", 'note = "\\q"\ndisks'))], "states", "no TOML"),
            ([*measure, folder], "states", "directory"),
            (["continue", file("disks = []")], "states", "missing"),
            (["rest", file("disks")], "states", "no TOML"),
            # Reports
            ([*measure, scene], "\n", "no line of a report"),
            ([*measure, scene], "state \u00b2\n", "no line of a report"),
            ([*measure, scene], f"state {many}\n", "no line of a report"),
            ([*measure, scene], "done 5\nwalls x\n", "line 'walls'"),
            ([*measure, scene], f"{many} 0 wall 0 0 1 1\n", "no line of a report"),
            (["check", scene], "limit rounds\n", "no line of a report"),
            ([*measure, scene], "inside 2 2 2 0\n", "line 'inside'"),
            ([*measure, scene], f"inside 2 2 2 0 {many}\n", "line 'inside'"),
            ([*measure, scene], "inside 2 2 2 0 0\nsides 4 0 0 0 0 0\n", "sides of tick 4"),
            ([*measure, scene], "inside 2 3 2 0 0\nsides 2 0 0 0 0 0\n", "3 disks at tick 2"),
            ([*measure, scene], "inside 2 2 2 0 0\nsides 2 0 0 0 0 0\n", "breaks off"),
            (["measure", "pressure,psi6", scene], "inside 2 2 2 0 0\nsides 2 0 0 0 0 0\n", "sums alone"),
            (["measure", "psi6", scene], "inside 2 2 2 0 0\nsides 2 0 0 0 0 0\ndone 5\nwalls 0\npairs 1\nmomentum 0 0\n"
                                       "energy 2 2\ninside 5 2 2 1 8\nsides 5 0 0 0 0 0\n", "no state"),
            # Tables
            (fitting, head, "disks, not 0"),
            (fitting, head + "1,1,1e999,0,1\n", "finite"),
            (fitting, head + "1,1,0,0,1\n", "no disk moves"),
            (fitting, head + "1,1,1,0,-1\n", "above 0"),
            (fitting, head + "1,1,1,0,1e-9\n", "too small"),
            (fitting, head + "11,1,1,0,1\n", "disk 0 isn't inside"),
            (fitting, head + "0.3,1,1,0,1\n", "disk 0 isn't inside"),
            (fitting, head + "5,5,1,0,1\n1,1,0,0,1\n5.5,5,0,0,1\n", "disks 0 and 2 overlap"),
            (fitting, head + "1,1,1\n", "line 2"),
            (fitting, "a,b\n\0,1\n", "no x, y"),
            (["fit", "--width", "1e-320", "--height", "1"], head + "1,1,1,0,1\n", "isn't inside"),
        ]:
            with self.subTest([str(it)[:40] for it in words], report=report[:40]):
                status, out, error = self.command(*words, report=report)
                self.assertEqual((status, out, error.count("\n")), (2, "", 1), error)
                self.assertRegex(error, said)

    def test_streams_that_are_closed_or_full_are_told_in_one_line(self):
        command = f"{sys.executable} -m hard_disks"
        for words, said in [
            (f"measure pressure {SCENES}/states.toml <&-", "standard input is closed"),
            ("scene --phi 0.5 --disks 10 >&-", "standard output is closed"), ("scene --phi 0.5 --disks 10 >/dev/full", "No space"),
        ]:
            with self.subTest(words):
                ran = subprocess.run(f"{command} {words}", shell=True, env={**os.environ, "PYTHONPATH": str(TOOLS)}, stderr=subprocess.PIPE)
                self.assertEqual((ran.returncode, ran.stderr.count(b"\n")), (2, 1), ran.stderr)
                self.assertIn(said, ran.stderr.decode())

    def test_a_terminal_is_told_that_it_is_waited_for(self):
        ours, theirs = pty.openpty()
        words = [sys.executable, "-m", "hard_disks", "measure", "pressure", str(SCENES / "states.toml")]
        with subprocess.Popen(words, env={**os.environ, "PYTHONPATH": str(TOOLS)}, stdin=theirs, stderr=subprocess.PIPE) as ran:
            self.assertEqual(ran.stderr.readline(), b"hard_disks: waiting for a report on standard input, as by <FILE\n")
            ran.kill()
        os.close(ours)
        os.close(theirs)

    def test_what_cannot_be_done_is_one_line_with_status_2(self):
        scene, fluid_scene = SCENES / "states.toml", SCENES / "fluid.toml"
        for words, report, said in [
            (["scene", "--phi", "0.95"], "states", "hex lattice holds"),
            (["scene", "--phi", "nan"], "states", "above 0"),
            (["scene", "--phi", "0.5", "--sizes", "a:b"], "states", "isn't of the form"),
            (["scene", "--phi", "0.5", "--disks", "70000"], "states", "65536"),
            (["scene", "--phi", "0.5", "--time", "1e12"], "states", "ticks"),
            (["measure", "pressure", scene], "no report\n", "no line of a report"),
            (["measure", "pressure", scene, "--margin", "99"], "states", "leaves nothing"),
            (["measure", "pressure", scene, "--from", "1e6"], "states", "the run ends"),
            (["measure", "pressure", scene, "--blocks", "1"], "states", "from 2 to"),
            (["measure", "speeds", scene, "--width", "9"], "states", "bins of 9"),
            (["measure", "gr", scene], "states", "too small"),
            (["measure", "psi6", scene], "states", "three disks"),
            (["measure", "msd", fluid_scene], "fluid", "no every"),
            (["measure", "gr", fluid_scene], "states", "in the scene|scene hasn't"),
            (["measure", "gr", SCENES / "gone.toml"], "states", "No such file"),
            (["draw", scene, "-o", "x.mp4"], "states", "doesn't end in"),
            (["draw", scene, "-o", "x.svg", "--tick", "9999"], "states", "no frame from tick"),
            (["equation", "--program", "/gone"], "states", "no program"),
            (["equation", "--seeds", "0"], "states", "from 1 to"),
            (["equation", "--every", "nan"], "states", "above 0"),
            (["equation", "--program", "/bin/true", "--margin", "99"], "states", "leaves nothing"),
            (["equation", "--program", "/bin/true", "--every", "1e308"], "states", "ticks"),
            (["equation", "--program", "/bin/true", "--disks", "50"], "states", "breaks off"),
        ]:
            with self.subTest(words):
                status, out, error = self.command(*words, report=report)
                self.assertEqual((status, out, error.count("\n")), (2, "", 1), error)
                self.assertRegex(error, said)


if __name__ == "__main__":
    main()

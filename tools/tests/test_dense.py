#!/usr/bin/env python3
"""Tests of what the package hard_disks has for dense fluids: soft starts, profiles from the walls, g6(r), S(k), equations.

    python3 tools/tests/test_dense.py

Fluids are run by the built program, or by the one that the environment variable HARD_DISKS names. What can't be tested,
without numpy or a program, is said."""
import contextlib
import io
import math
import shutil
import subprocess
import tempfile
import time
import unittest

from physics_scenes import column, end_of, fluid, main, noted, np, read_text, report_of, scene_of, value

from places import TOOLS

from hard_disks import errors, theory
from hard_disks.bonds import bond_order
from hard_disks.commands import main as command
from hard_disks.hexatic import STEP, BondCorrelation, Pairs
from hard_disks.making import hexagonal, make
from hard_disks.measuring import measured, together, watch
from hard_disks.pressure import Pressure
from hard_disks.profiles import Profile, Strips, level_notes
from hard_disks.program import find_program
from hard_disks.sampling import sampling
from hard_disks.scenes import Refused
from hard_disks.structure import HexaticOrder
from hard_disks.waves import Waves, check_grid

MIXTURE = ((1.0, 0.5), (1.4, 0.5))


class SumsOverWaves(unittest.TestCase):
    def test_sums_by_the_grid_are_the_exact_ones(self):
        chance = np.random.default_rng(1)
        for count, sides, across, up in [(1, (3.0, 4.0), 2, 1), (400, (21.0, 17.0), 50, 40), (50, (9.0, 8.0), 0, 7)]:
            places, values = chance.uniform(size=(count, 2)) * sides, chance.uniform(size=count)
            waves = Waves(*sides, across, up)
            kx, ky = (2 * np.pi * it / side for it, side in zip(waves.numbers(), sides))
            wanted = (np.exp(1j * np.outer(kx, places[:, 0])) * values) @ np.exp(1j * np.outer(places[:, 1], ky))
            np.testing.assert_allclose(waves.sums(places, values), wanted, atol=1e-4 * math.sqrt(count))

    def test_65536_disks_take_a_second_at_most(self):
        places = np.random.default_rng(1).uniform(size=(65_536, 2)) * 250
        begun = time.process_time()
        Waves(250.0, 250.0, 597, 597).sums(places, np.ones(len(places)))
        # It takes half a second; a machine where others run may need more.
        self.assertLess(time.process_time() - begun, 2)

    def test_too_great_a_grid_is_refused(self):
        with self.assertRaisesRegex(Refused, "lesser --most"):
            check_grid((10_000, 10_000))


class Correlations(unittest.TestCase):
    def test_pairs_of_four_disks(self):
        # At the distances 3 and 4 along the sides, and 5 across, each pair counted from both sides, and each with itself.
        order = np.array([1, 1j, -1, 0.5 + 0.5j])
        pairs = Pairs(np.array([10.0, 10.0]), np.arange(0, 6.25, 0.5))
        products, numbers = pairs.sums(np.array([[1, 1], [4.2, 1], [1, 5.2], [4.2, 5.2]]), order)
        np.testing.assert_allclose(numbers[[0, 6, 8, 10]], [4, 4, 4, 4], atol=1e-6)
        self.assertAlmostEqual(numbers.sum(), 16)
        found = {(0, 1): 6, (2, 3): 6, (0, 2): 8, (1, 3): 8, (0, 3): 10, (1, 2): 10}
        wanted = np.zeros(len(products))
        wanted[0] = (np.abs(order) ** 2).sum()
        for (a, b), place in found.items():
            wanted[place] += 2 * (order[a] * np.conj(order[b])).real
        np.testing.assert_allclose(products, wanted, atol=1e-6)

    def test_a_crystal_keeps_its_order_and_two_halves_lose_it(self):
        lattice = hexagonal(900)
        places = np.rint(lattice.sites * 110).astype(int)
        width, height = (np.array([lattice.width, lattice.height]) * 110).astype(int)
        scene = scene_of([(x, y, 1 + x % 3, y % 2) for x, y in places.tolist()], int(width), int(height))
        table = measured(read_text(end_of(scene), scene), BondCorrelation(sampling(scene, 0, 4, 2), most=12.0))
        np.testing.assert_allclose(column(table, "g6_relative"), 1, atol=1e-3)
        np.testing.assert_allclose(column(table, "g6"), 1, atol=1e-3)
        # The first bin that has pairs is that of neighbours, at 1.1.
        self.assertEqual(column(table, "r")[0], 1.25)

    def test_pairs_by_the_grid_are_those_counted_one_by_one(self):
        chance = np.random.default_rng(2)
        places = chance.uniform(size=(400, 2)) * 20
        order = bond_order(places)[0]
        edges = np.arange(0, 8.5, 1.0)
        products, numbers = Pairs(np.array([20.0, 20.0]), edges).sums(places, order)
        distance = np.hypot(*(places[:, None] - places).T)
        wanted = np.histogram(distance, edges)[0]
        np.testing.assert_allclose(numbers, wanted, rtol=0.02)
        exact = np.histogram(distance, edges, weights=(order[:, None] * order.conj()).real)[0]
        np.testing.assert_allclose(products / numbers, exact / wanted, atol=0.005)

    def test_what_cannot_be_correlated_is_refused(self):
        scene = scene_of([(500, 500, 1, 0), (610, 500, 0, 0), (500, 650, 0, 0)])
        for words, said in [({"most": 8.5}, "wide"), ({"most": 2.0, "width": STEP}, "too fine")]:
            with self.assertRaisesRegex(Refused, said):
                BondCorrelation(sampling(scene, 0, 1, 2), **words)


class Profiles(unittest.TestCase):
    def test_strips_have_the_areas_of_what_is_in_them(self):
        strips, edges = Strips(20.0, 14.0, 3.0), np.arange(0, 7.5, 0.5)
        places = np.random.default_rng(1).uniform(size=(200_000, 2)) * [20.0, 14.0]
        depth, is_used = strips.depths(places)
        found = np.histogram(depth[is_used], edges)[0] / len(places) * 20 * 14
        np.testing.assert_allclose(found, strips.areas(edges), rtol=0.03)
        self.assertEqual(strips.length(), 2 * (20 - 6) + 2 * (14 - 6))

    def test_profile_of_four_disks(self):
        # At 0.6 and 1.6 diameters from the left wall, at 2.5 from the lower one, and one in a corner that isn't counted.
        scene = scene_of([(60, 500, 2, 0), (160, 400, 0, 4), (500, 250, 0, 0), (130, 130, 9, 9)])
        table = measured(read_text(end_of(scene), scene), Profile(sampling(scene, 0, 2, 2)))
        np.testing.assert_allclose(column(table, "distance"), [0.5, 1.5, 2.5])
        # Strips of a width of 1 along walls of 10, without 2 on either side; the third one ends on diagonals.
        np.testing.assert_allclose(column(table, "phi"), [math.pi / 4 / area for area in (24, 24, 20)])
        squares = np.array([4.0, 16.0, 0.0]) / 2 / scene.speed**2
        np.testing.assert_allclose(column(table, "T"), squares)
        order = np.abs(bond_order(np.array([row[:2] for row in scene.disks]))[0])[:3]
        np.testing.assert_allclose(column(table, "psi6"), order)
        with self.assertRaisesRegex(Refused, "half of the box"):
            Profile(sampling(scene, 0, 2, 2), most=5.5)

    def test_a_profile_says_from_where_it_is_level(self):
        depths, errors = np.arange(30.0), np.full(30, 1e-3)
        for reach, said in [(0.0, "from 0 sigma"), (2.0, "from 8 sigma"), (8.0, "CAUTION")]:
            values = 0.7 + 0.3 * np.exp(-depths / reach) if reach else np.full(30, 0.7)
            self.assertIn(said, level_notes(depths, (values, errors, 0.01))[0], reach)
        for errors, said in [(math.nan, "unknown"), (0.02, "too great"), (1e-3, "from 0 sigma")]:
            self.assertIn(said, level_notes(depths, (np.full(30, 0.7), np.full(30, errors), 0.01))[0])

    def test_several_runs_say_it_by_their_spread(self):
        # One state of a run says nothing of errors, and so nothing of where it is level.
        runs = []
        for seed in (1, 2, 3):
            scene, report = fluid(300, 0.4, 4.0, 2.0, seed=seed)
            runs.append(Profile(sampling(scene, 3.0)))
            watch(read_text(report, scene), runs[-1:])
            self.assertTrue(any("so is from where on" in note for note in runs[-1].table().notes))
        notes = together(runs).notes
        self.assertFalse(any("so is from where on" in note for note in notes), notes)
        self.assertEqual(sum("level" in note for note in notes), 1, notes)
        self.assertTrue(any("rho" in note and "which is P / T" in note for note in notes), notes)

    def test_the_density_at_walls_is_the_pressure_on_them(self):
        scene, report = fluid(900, 0.45, 24.0, 0.5)
        part = sampling(scene, blocks=10)
        density, error = noted(measured(read_text(report, scene), Profile(part)), "rho")
        table = measured(read_text(report, scene), Pressure(part))
        by_collisions = value(table, "Z_wall") * value(table, "phi") * 4 / math.pi
        self.assertLess(abs(density / by_collisions - 1), 4 * error / density + 0.01)


class Order(unittest.TestCase):
    def test_near_freezing_errors_are_known_only_if_the_memory_of_order_is(self):
        # In a box so small order remembers for a few σ / v: enough states in a long time, too few, and a short time.
        for most, every, said in [(160.0, 1.0, "by the correlation time of psi6"), (60.0, 6.0, "so few states"), (4.0, 0.2, "are too short")]:
            scene = make(200, 0.7, lattice="soft", time=most, every=every)
            table = measured(read_text(report_of(scene), scene), HexaticOrder(sampling(scene)))
            self.assertTrue(any(said in note for note in table.notes), (most, table.notes))
            self.assertEqual(np.isnan(value(table, "local_error")), "by the" not in said)

    def test_sums_alone_tell_no_errors_near_freezing(self):
        words = ["equation", "--phi", "0.3,0.67", "--disks", "200", "--time", "12", "--margin", "2", "--program", find_program()]
        with contextlib.redirect_stdout(io.StringIO()) as out:
            command(list(map(str, words)))
        dilute, dense = (line.split(",") for line in out.getvalue().splitlines() if line.startswith("0."))
        place = next(line for line in out.getvalue().splitlines() if line.startswith("asked_for")).split(",").index("Z_error")
        self.assertNotEqual(dilute[place], "unknown")
        self.assertEqual(dense[place], "unknown")
        self.assertIn("CAUTION at 0.67: so few states, or sums alone", out.getvalue())

    def test_thinner_fluids_and_disks_on_a_line_have_none(self):
        for rows, width in [([(500, 500, 1, 0), (610, 500, 0, 0), (500, 650, 0, 0)], 1_000),
                            ([(60 + 110 * it, 60, 1, 0) for it in range(9)], 1_050)]:
            scene = scene_of(rows, width, 1_000 if len(rows) == 3 else 120)
            found = errors.Errors(sampling(scene, 0, 0.1, 2)).heat
            for tick in range(4):
                found.add(tick, np.array([row[:4] for row in scene.disks]))
            self.assertEqual((found.order.rows, found.order.memory, len(found.rows)), ([], 0, 4))


class Margins(unittest.TestCase):
    def test_the_margin_grows_near_freezing_and_a_caution_says_if_it_is_too_small(self):
        for count, phi, sizes, margin, is_cautioned in [
            (2_000, 0.6, ((1.0, 1.0),), 10, False), (10_000, 0.7, ((1.0, 1.0),), 20, False),
            (2_000, 0.7, ((1.0, 1.0),), 11.8, True), (900, 0.8, MIXTURE, 7.5, False),
        ]:
            scene = make(count, phi, sizes, lattice="soft" if len(sizes) > 1 else "hex")
            found = sampling(scene)
            self.assertAlmostEqual(found.margin / scene.sigma, margin, delta=0.3)
            self.assertEqual(any("walls' order" in note for note in found.notes()), is_cautioned, (count, phi))


class Soft(unittest.TestCase):
    def test_dense_starts_are_valid_and_the_program_runs_them(self):
        program = find_program()
        for count, phi, sizes in [(500, 0.7, ((1.0, 1.0),)), (500, 0.8, MIXTURE), (1, 0.4, ((1.0, 1.0),)), (3, 0.3, MIXTURE)]:
            with self.subTest((count, phi)):
                scene = make(count, phi, sizes, lattice="soft", time=0.5)
                disks = np.array(scene.disks)
                self.assertAlmostEqual(scene.phi, phi, delta=1e-4)
                radii, box = disks[:, 4] // 2, [scene.width, scene.height]
                self.assertTrue((disks[:, :2] >= radii[:, None]).all() and (disks[:, :2] <= box - radii[:, None]).all())
                apart = ((disks[:, None, :2] - disks[:, :2]) ** 2).sum(axis=2) - (radii[:, None] + radii) ** 2
                self.assertGreater(apart[np.triu_indices(count, 1)].min(initial=1), 0)
                report = subprocess.run([program], input=scene.text(), capture_output=True, text=True).stdout
                self.assertIn(f"done {scene.end}\n", report)

    def test_a_seed_says_the_scene_and_order_is_short(self):
        first, again, other = (make(400, 0.7, lattice="soft", seed=seed) for seed in (1, 1, 2))
        self.assertEqual(first, again)
        self.assertNotEqual(first, other)
        # No lattice: ψ6 points everywhere.
        self.assertLess(abs(bond_order(np.array([row[:2] for row in first.disks]))[0].mean()), 0.35)

    def test_what_jams_is_refused_in_one_line(self):
        for words, said in [(["--phi", "0.9"], "jam"), (["--phi", "0.5", "--sizes", "1:0.5,20:0.5"], "factor of 10")]:
            error = io.StringIO()
            with contextlib.redirect_stderr(error), self.assertRaises(SystemExit) as end:
                command(["scene", "--disks", "200", "--lattice", "soft", *words])
            self.assertEqual((end.exception.code, error.getvalue().count("\n")), (2, 1))
            self.assertIn(said, error.getvalue())


@unittest.skipUnless(shutil.which("g++"), "there is no g++")
class Periodic(unittest.TestCase):
    def test_the_program_that_the_reference_stands_on(self):
        folder = tempfile.TemporaryDirectory()
        self.addCleanup(folder.cleanup)
        program, source = f"{folder.name}/periodic", TOOLS / "reference" / "periodic.cpp"
        subprocess.run(["g++", "-O2", "-o", program, source], check=True)
        for phi, time_measured in ((0.3, 200), (0.6, 50)):
            words = [phi, 24, 28, 1, 20, time_measured, 4]
            found = subprocess.run([program, *map(str, words)], capture_output=True, text=True, check=True).stdout
            rows = np.array([line.split(",") for line in found.splitlines()], float)
            self.assertEqual(rows.shape, (4, 6))
            self.assertAlmostEqual(rows[:, 5].mean() / theory.virial(phi), 1, delta=0.01)


class Equations(unittest.TestCase):
    def test_the_reference_meets_what_was_simulated(self):
        for it in theory.SIMULATED:
            self.assertLess(abs(theory.REFERENCE(it.phi) - it.factor), 3 * it.error + 5e-4 * it.factor, it.phi)

    def test_each_equation_holds_where_it_is_used(self):
        for equation in theory.EQUATIONS:
            for it in theory.SIMULATED:
                with self.subTest((equation.name, it.phi)):
                    if it.phi <= equation.most:
                        self.assertAlmostEqual(equation(it.phi) / it.factor, 1, delta=2e-3 + 3 * it.error / it.factor)
                    else:
                        self.assertTrue(math.isnan(equation(it.phi)))
        # Near freezing the series without its further coefficients is too great by percents.
        self.assertGreater(theory.virial(0.69) / theory.REFERENCE(0.69), 1.04)

    def test_a_caution_stands_above_what_fails(self):
        self.assertEqual(theory.cautions(0.6), [])
        for phi in (0.64, 0.68, 0.7):
            self.assertIn("CAUTION", theory.cautions(phi)[0])


if __name__ == "__main__":
    main()

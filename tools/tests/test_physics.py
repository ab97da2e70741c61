#!/usr/bin/env python3
"""Tests of what the measures of the package hard_disks say: of scenes that are worked out by hand, and of fluids.

    python3 tools/tests/test_physics.py

Fluids are run by the built program, or by the one that the environment variable HARD_DISKS names. What can't be tested,
without numpy or a program, is said."""
import io
import math
import subprocess
import unittest
import warnings
from dataclasses import replace
from unittest import mock

from physics_scenes import column, disks_at, end_of, fluid, main, noted, np, read_text, report_of, scene_of, value

from error_ratios import numbers

from hard_disks import theory
from hard_disks.bonds import bond_order
from hard_disks.commands import MEASURES
from hard_disks.comparing import compare
from hard_disks.composition import Composition, Squares, slopes
from hard_disks.dynamics import Displacement, Earlier, Speeds, VelocityCorrelation
from hard_disks.errors import Errors, spread_error
from hard_disks.heat import FASTER, Fluid, left_in, share_left, waves
from hard_disks.local import LocalFraction
from hard_disks.making import make
from hard_disks.measuring import measured, together, watch
from hard_disks.motion import Followed
from hard_disks.part_sums import margin_in_units
from hard_disks.paths import Paths
from hard_disks.pressure import Pressure, Rate
from hard_disks.program import find_program
from hard_disks.reports import read_report
from hard_disks.rests import rest
from hard_disks.runs import Run
from hard_disks.sampling import sampling
from hard_disks.scattering import Scattering
from hard_disks.scene_text import parse_scene
from hard_disks.scenes import Refused
from hard_disks.spectra import cosines, slowest
from hard_disks.structure import HexaticOrder, PairDistribution, Partial, StructureFactor
from hard_disks.viscosity import Stress, Viscosity
from hard_disks.vortices import Vortices, seen


class ByHand(unittest.TestCase):
    """Scenes of two or three disks of the diameter 100."""

    def test_pressure_of_two_disks(self):
        # They meet head on with velocities 3 and -3, so r · Δv is 100 · 6; 2 N T t is 2 · 9 · 100.
        scene = scene_of([(400, 500, 3, 0), (600, 500, -3, 0)])
        report = end_of(scene, ["16 0 pair 0 1 -3 0 3 0"])
        table = measured(read_text(report, scene), Pressure(sampling(scene, start=0, margin=1, blocks=2)))
        # At the tick 16 they are 104 apart.
        self.assertAlmostEqual(value(table, "Z"), 1 + 104 * 6 / (2 * 9 * 100))
        self.assertAlmostEqual(value(table, "phi"), 2 * math.pi / 4 * 100**2 / 800**2)
        self.assertEqual(value(table, "collisions"), 1)
        found = measured(read_text(report, scene), Rate(sampling(scene, start=0, margin=1, blocks=2)))
        # Each of them collides once in 100 ticks, and v is 3 / √2, so σ / v is 100 √2 / 3 ticks.
        self.assertAlmostEqual(value(found, "rate"), 100 * math.sqrt(2) / 3 / 100)

    def test_pressure_of_two_disks_by_sums(self):
        # The scene of states.toml for 6 ticks: at tick 3 r·J is 8, and N = 2, T = 1/2 and t = 6.
        scene = scene_of([(10, 10, 1, 0), (20, 10, -1, 0)], 40, 20, 4, end=6, every=2)
        sums = [f"inside {tick} 2 2 {hits} {8 * hits}\nsides {tick} 0 0 0 0 0\n" for tick, hits in ((2, 0), (4, 1), (6, 1))]
        report = "".join([*sums[:2], "done 6\nwalls 0\npairs 1\nmomentum 0 0\nenergy 2 2\n", sums[2]])
        table = measured(read_text(report, scene), Pressure(sampling(scene, start=0.0, margin=0.0)))
        self.assertEqual((value(table, "Z"), value(table, "collisions")), (1 + 8 / (2 * 2 * 0.5 * 6), 1))
        self.assertAlmostEqual(value(table, "phi"), 2 * math.pi * 4 / 800)
        self.assertEqual(value(table, "Z_wall"), 0)

    def test_pressure_of_a_disk_on_a_wall(self):
        # It hands over 2 · 10 once in 100 ticks to walls of 4 · 800; N T / A is 50 / 800².
        scene = scene_of([(900, 500, 10, 0)])
        table = measured(read_text(end_of(scene, ["5 0 wall 0 1 -10 0"]), scene), Pressure(sampling(scene, 0, 1, 2)))
        # How often it was counted inside, from where it is from the tick 6 on.
        counted = value(table, "phi") * 800**2 / (math.pi / 4 * 100**2)
        self.assertAlmostEqual(value(table, "Z_wall"), 20 / (3200 * 100) / (counted * 50 / 800**2))

    def test_stress_of_two_disks(self):
        # They carry 9 in each tick, and hand over half of 104 · 6 at once.
        scene = scene_of([(400, 500, 3, 0), (600, 500, -3, 0)])
        rows, found = np.array([row[:4] for row in scene.disks]), []
        stress = Stress(rows, 4.0)
        for item in read_text(end_of(scene, ["16 0 pair 0 1 -3 0 3 0", "99 0 wall 0 0 3 0"]), scene).followed([]):
            if isinstance(item, Followed):
                found += stress.add(item).tolist()
        np.testing.assert_allclose(found, [9 * tick + 312 * (tick >= 16) for tick in range(4, 100, 4)])

    def test_pair_distribution_of_three_disks(self):
        # One in the middle, one at 2.1 and one at 2.5 diameters from it.
        scene = scene_of([(500, 500, 1, 0), (710, 500, 0, 0), (500, 750, 0, 0)])
        table = measured(read_text(end_of(scene), scene), PairDistribution(sampling(scene, 0, 1, 2), most=3.0, width=0.1))
        g, r = column(table, "g"), column(table, "r")
        np.testing.assert_allclose(r[g > 0], [2.15, 2.55])
        # Only the one in the middle is looked at; three disks lie inside, on 8 times 8 diameters.
        np.testing.assert_allclose(g[g > 0], [1 / (3 / 64 * math.pi * (b**2 - a**2)) for a, b in [(2.1, 2.2), (2.5, 2.6)]])

    def test_pair_distribution_of_two_sizes(self):
        # A great one in the middle, a small one at 210 from it and one at 250; the mean diameter is 80. All lie inside, on
        # 10 times 10 diameters, and only that in the middle is looked at.
        scene = scene_of([(500, 500, 1, 0, 100), (710, 500, 0, 0, 70), (500, 750, 0, 0, 70)])
        table = measured(read_text(end_of(scene), scene), PairDistribution(sampling(scene, 0, 1.25, 2), most=4.0, width=0.1))
        names = [f"g_{it}{end}" for it in ("00", "01", "11") for end in ("", "_error")]
        self.assertEqual(table.columns[3:], [*names, "share_0", "share_1"])
        self.assertEqual([value(table, "share_0"), value(table, "share_1")], [2 / 3, 1 / 3])
        g, r = column(table, "g_01"), column(table, "r")
        np.testing.assert_allclose(r[g > 0], [2.65, 3.15])
        np.testing.assert_allclose(g[g > 0], [1 / (2 / 100 * math.pi * (b**2 - a**2)) for a, b in [(2.6, 2.7), (3.1, 3.2)]])
        self.assertTrue((column(table, "g_11")[r > 1] == 0).all())
        # Two great ones are no nearer than 1.25, and so on: there is no error, for several runs neither.
        both = [PairDistribution(sampling(scene, 0, 1.25, 2), most=4.0, width=0.1) for _ in "ab"]
        for it in both:
            watch(read_text(end_of(scene), scene), [it])
        for found in (table, together(both)):
            for name, touching in [("g_11", 1.25), ("g_01", 1.0625), ("g", 0.875)]:
                self.assertEqual((column(found, f"{name}_error") == 0).tolist(), (r + 0.05 < touching + 1e-6).tolist())
        self.assertTrue(any("sizes: 0 has 0.875 sigma, 1 has 1.25 sigma" in it for it in table.notes))

    def test_structure_factor_of_two_disks(self):
        # At the same distance from the middle both count alike: S = 1 + cos k_x d, whose mean over directions is 1 + J0(k d).
        from scipy.special import j0

        scene = scene_of([(7_900, 8_000, 1, 0), (8_100, 8_000, 0, 0)], width=16_000, height=16_000)
        table = measured(read_text(end_of(scene), scene), StructureFactor(sampling(scene, 0, 1, 2), most=4.0, width=0.4))
        k, s = column(table, "k"), column(table, "S")
        np.testing.assert_allclose(s[1:], 1 + j0(2 * k[1:]), atol=0.03)

    def test_bond_order_of_a_hexagon_and_a_square(self):
        angles = np.arange(6) * math.pi / 3 + 0.2
        hexagon = np.vstack([[0, 0], np.column_stack([np.cos(angles), np.sin(angles)])])
        order, counts = bond_order(hexagon)
        self.assertEqual(counts[0], 6)
        self.assertAlmostEqual(order[0], np.exp(6j * 0.2))
        with self.assertRaisesRegex(Refused, "three disks"):
            bond_order(np.array([[0, 0], [1, 0]]))

    def test_free_disks_move_evenly(self):
        scene = scene_of([(400, 500, 3, 0), (600, 500, 0, -4)], end=20, every=5)
        states = "".join(
            f"state {t}\ndisk 0 {400 + 3 * t} 500 3 0\ndisk 1 600 {500 - 4 * t} 0 -4\n" for t in (5, 10, 15)
        )
        last = "done 20\nwalls 0\npairs 0\nmomentum 3 -4\nenergy 25 25\ndisk 0 460 500 3 0\ndisk 1 600 420 0 -4\n"
        most = 10 / scene.time

        def of(measure, *more):
            return measured(read_text(states + last, scene), measure(sampling(scene, 0, 1, 2), *more))

        # The mean of 9 and 16, over σ² = 10⁴, times t².
        np.testing.assert_allclose(column(of(Displacement, most), "msd"), [12.5 * t**2 / 1e4 for t in (5, 10)])
        found = of(VelocityCorrelation, most)
        np.testing.assert_allclose(column(found, "time"), [t / scene.time for t in (0, 5, 10)], atol=1e-3)
        np.testing.assert_allclose(column(found, "C"), [1, 1, 1])
        np.testing.assert_allclose(column(found, "D"), [scene.speed * t / scene.sigma for t in (0, 5, 10)])
        # At half a turn for each diameter Fs is the mean of cos(k · Δr) along four directions; normal displacements have twice
        # the square of the mean square as their mean fourth power.
        found = of(Scattering, most, math.pi)
        for place, t in ((1, 5), (2, 10)):
            turns = [math.pi * way * math.cos(angle) * t / 100 for way in (3, 4) for angle in np.arange(4) * math.pi / 4]
            self.assertAlmostEqual(column(found, "Fs")[place], np.mean(np.cos(turns)))
            self.assertAlmostEqual(column(found, "alpha2")[place], (3**4 + 4**4) / 2 / (2 * 12.5**2) - 1)
        # v = 2.5, so σ / v is 40 ticks; by Enskog's theory C falls within some thousand.
        self.assertTrue(any("times are too short" in it for it in of(Displacement, most).notes))
        self.assertFalse(any("walls" in it and "CAUTION" in it for it in of(Displacement, most).notes))
        # v = 2.5, so the speeds are 1.2 and 1.6.
        table = of(Speeds, 3.0, 0.25)
        np.testing.assert_allclose(column(table, "speed")[column(table, "density") > 0], [1.125, 1.625])

    def test_squared_ways_may_be_greater_than_whole_numbers(self):
        # Twenty disks are 10⁹ units away along both axes, and come back.
        earlier, none = Earlier(1, np.zeros((20, 2), np.int64)), np.zeros((20, 4), np.int64)
        earlier.add(0, none + [10**9, 10**9, 0, 0], np.ones(20, bool))
        np.testing.assert_allclose(earlier.squared_ways(none), [20 * 2e18])

    def test_diffusion_near_walls_is_cautioned(self):
        # In 10 ticks it goes 0.3 diameters along x, and in a diffusion as far along y.
        scene = scene_of([(400, 500, 3, 0)], end=20, every=5)
        states = "".join(f"state {t}\ndisk 0 {400 + 3 * t} 500 3 0\n" for t in (5, 10, 15))
        last = "done 20\nwalls 0\npairs 0\nmomentum 3 0\nenergy 9 9\ndisk 0 460 500 3 0\n"
        for margin, is_near in [(0.41, True), (0.43, False)]:
            for measure in (Displacement, VelocityCorrelation):
                with self.subTest((margin, measure)):
                    table = measured(read_text(states + last, scene), measure(sampling(scene, 0, margin, 2), 10 / scene.time))
                    self.assertEqual(any("meet walls" in it for it in table.notes), is_near)

    def test_what_nothing_says_is_unknown(self):
        # Two disks that never meet, one disk, and none inside.
        for disks, margin in [([(300, 300, 1, 0), (600, 600, 0, 1)], 1), ([(500, 500, 1, 0)], 1), ([(60, 60, 1, 0)], 4)]:
            scene = scene_of(disks, every=10)
            states = "".join(f"state {t}\n" + disks_at(scene, t) for t in range(10, 100, 10))
            report = states + end_of(scene).replace(disks_at(scene, 0), disks_at(scene, 100))
            for measure in (Pressure, Rate, Speeds):
                with self.subTest((disks, measure)), warnings.catch_warnings():
                    warnings.simplefilter("error")
                    table = measured(read_text(report, scene), measure(sampling(scene, 0, margin)))
                    out = io.StringIO()
                    table.write(out)
                    self.assertIn("unknown", out.getvalue())
                    self.assertNotIn("nan", out.getvalue())
                    for place, name in enumerate(table.columns):
                        if name in ("Z_error", "Z_wall_error", "rate_error"):
                            self.assertTrue(np.isnan(table.rows[0][place]), name)


class MadeUp(unittest.TestCase):
    """Errors of sums that are drawn: 480 blocks of time, of 1 σ / v each."""

    def errors(self, heat=None):
        scene = scene_of([(400, 500, 1, 0), (600, 500, -1, 0)], end=480 * 141)
        found = Errors(sampling(scene, 0, 1, 480))
        ticks = [int((block + 0.5) * 141) for block in range(480)]
        found.heat.rows = [(tick, 100, 100.0 + (0 if heat is None else it)) for tick, it in zip(ticks, np.resize(heat, 480))]
        return found

    def stated(self, series, lag=0.0):
        """The root mean square of stated errors, and the spread of the means."""
        found = [self.errors().ratio(it, np.ones(len(it)), lag) for it in series]
        return math.sqrt(np.mean([float(error) ** 2 for _, error in found])), np.std([float(it) for it, _ in found])

    def test_the_error_of_some_values(self):
        # Of 1, 2 and 3 the standard deviation is 1.
        self.assertAlmostEqual(float(spread_error([1, 2, 3])), 1 / math.sqrt(3))
        # Of one value, and of values that don't differ, it isn't known.
        self.assertTrue(np.isnan(spread_error([1])))
        self.assertTrue(np.isnan(spread_error([2, 2, 2])))

    def test_independent_values(self):
        stated, spread = self.stated(np.random.default_rng(1).normal(size=(400, 480)))
        self.assertAlmostEqual(stated * math.sqrt(480), 1, delta=0.1)
        self.assertAlmostEqual(stated / spread, 1, delta=0.15)

    def remembering(self, time, seed, count=400):
        """Series each of whose values has so much of the one before that it remembers for a time before and after."""
        share = math.exp(-2 / time)
        series = np.random.default_rng(seed).normal(size=(count, 480))
        series[:, 1:] *= math.sqrt(1 - share**2)
        for block in range(1, 480):
            series[:, block] += share * series[:, block - 1]
        return series

    def test_values_that_remember(self):
        # Waves are slow beside the times of the first two, but not quite beside the third.
        for time, wanted in [(4, 1), (12, 1), (40, 0.85)]:
            stated, spread = self.stated(self.remembering(time, 2, 300))
            self.assertAlmostEqual(stated / spread, wanted, delta=0.12)

    def test_values_that_overlap(self):
        # Means over the next 30, as displacements in 30 σ / v are.
        drawn = np.cumsum(np.random.default_rng(3).normal(size=(400, 510)), axis=1)
        stated, spread = self.stated(drawn[:, 30:] - drawn[:, :-30], 30.0)
        self.assertAlmostEqual(stated / spread, 0.95, delta=0.15)
        for lag in (30.0, 60.0):
            self.assertLessEqual(self.errors().counted(lag) * lag, 480 - lag)

    def test_what_order_remembers_is_found_or_errors_are_unknown(self):
        # What follows order has good errors if the time is long beside the memory. If it is a few times as long, memory isn't
        # seen whole: errors are too small, if they aren't unknown.
        for time, least, most, wanted in [(20, 1, 1, 1), (40, 0.95, 1, 1), (64, 0.9, 1, 0.95), (240, 0, 0.5, 0.45)]:
            values, stated, memories = [], [], []
            for local, whole in zip(self.remembering(time, 4, 200), self.remembering(time, 5, 200)):
                errors = self.errors()
                errors.heat.order.is_dense = True
                errors.heat.order.rows = [(141 * tick, *row) for tick, row in enumerate(zip(local, local + whole))]
                value, error = errors.ratio(local, np.ones(480))
                values, stated = [*values, float(value)], [*stated, float(error)]
                memories.append(errors.heat.order.memory)
                notes = errors.notes()
                self.assertEqual(np.isnan(error), any("are unknown" in it for it in notes))
                self.assertFalse(any("e+" in it for it in notes), notes)
            known = np.isfinite(stated)
            self.assertTrue(least <= known.mean() <= most, (time, known.mean()))
            ratio = math.sqrt(np.nanmean(np.square(stated))) / np.std(values)
            self.assertAlmostEqual(ratio, wanted, delta=0.15)
            if least:
                self.assertAlmostEqual(np.mean(memories) / time, 1, delta=0.2)

    def test_what_follows_the_heat_has_its_error(self):
        heat = np.sin(np.arange(480) / 40)
        errors = self.errors(heat)
        _, alone = errors.ratio(np.random.default_rng(4).normal(size=480) / 100, np.ones(480))
        _, following = errors.ratio(heat, np.ones(480))
        slope = 1 / (errors.heat.entropy.std() / heat.std())
        wanted = slope * math.sqrt(errors.heat.variance_of_mean(errors.time))
        self.assertAlmostEqual(float(following) / wanted, 1, delta=0.05)
        self.assertLess(float(alone), 0.001)

    def test_what_follows_the_heat_between_two_states_has_its_error(self):
        # A mean over the next 60 blocks of what changes within some hundred.
        heat, lag = np.sin(np.arange(540) / 25), 60
        later = np.convolve(heat, np.ones(lag) / lag, "valid")[:480]
        errors = self.errors(heat[:480])
        _, following = errors.ratio(later, np.ones(480), float(lag))
        slope = heat[:480].std() / errors.heat.entropy.std()
        wanted = slope * math.sqrt(errors.heat.variance_of_mean(errors.time - lag))
        self.assertAlmostEqual(float(following) / wanted, 1, delta=0.15)

    def test_what_has_nothing_to_do_with_the_heat_keeps_its_error(self):
        # Whatever share of the heat's variance is left in the mean: nearly all of it, as it hardly changes.
        random = np.random.default_rng(6)
        drawn, heat = random.normal(size=(300, 540)).cumsum(axis=1), self.remembering(200, 7, 300)
        values = drawn[:, 60:] - drawn[:, :-60]
        stated = [float(self.errors(20 * own).ratio(series, np.ones(480), 60.0)[1]) for series, own in zip(values, heat)]
        self.assertAlmostEqual(math.sqrt(np.mean(np.square(stated))) / values[:, :420].mean(axis=1).std(), 1, delta=0.2)

    def test_what_is_by_both_ends_has_its_error(self):
        # The changes of waves of some 5 blocks: their mean is by both ends, of which cosines alone would say √2 as much.
        random, values, stated = np.random.default_rng(8), [], []
        for a, b, time in zip(*random.normal(size=(2, 400)), random.uniform(4.5, 5.5, 400)):
            phases = 2 * math.pi * np.arange(481) / time
            series = np.diff(a * np.sin(phases) + b * np.cos(phases))
            value, error = self.errors().of(np.divide, series, np.ones(480), follows_heat=False)
            values, stated = [*values, float(value)], [*stated, float(error)]
        self.assertAlmostEqual(math.sqrt(np.mean(np.square(stated))) / np.std(values), 1, delta=0.15)

    def test_errors_beside_which_too_few_modes_are_slow_are_unknown(self):
        values = np.random.default_rng(9).normal(size=480)
        for lag, is_known in [(120.0, True), (160.0, False)]:
            errors = self.errors()
            self.assertEqual(np.isfinite(errors.ratio(values, np.ones(480), lag)[1]), is_known)
            self.assertEqual(any("several seeds" in it and "unknown" in it for it in errors.notes()), not is_known)

    def test_blocks_that_never_are_long_enough_are_cautioned(self):
        for values, is_growing in [(np.arange(480.0), True), (np.random.default_rng(5).normal(size=480), False)]:
            errors = self.errors()
            errors.ratio(values, np.ones(480))
            self.assertEqual(any("the least that they can be" in it for it in errors.notes()), is_growing)


class Equal(unittest.TestCase):
    def test_equal_speeds_fall_to_maxwells(self):
        for count in (1, 2, 3, 200, 201):
            velocities = np.array([row[2:4] for row in make(count, 0.2, speeds="equal").disks])
            self.assertLess(abs(np.hypot(*velocities.T) / math.sqrt(2) / make(count, 0.2).speed - 1).max(), 0.01 if count > 1 else 1)
            self.assertEqual(np.abs(velocities.sum(axis=0)).max() == 0, count > 1)
        scene = make(200, 0.4, time=6.0, every=1.0, speeds="equal")
        table = measured(read_text(report_of(scene), scene), Speeds(sampling(scene, 0.0), series=True))
        falling = column(table, "H")
        self.assertGreater(falling[0], 0)
        self.assertAlmostEqual(falling[-1], -1 - math.log(2 * math.pi), delta=0.3)
        self.assertAlmostEqual(column(table, "shape")[0], 1, delta=1e-3)


class HeatInside(unittest.TestCase):
    def test_a_thin_gas(self):
        # Its heat capacities are 1 and 2, and sound goes with √2 v.
        gas = Fluid(1e-5)
        self.assertAlmostEqual(gas.heat_capacity, 2, delta=1e-3)
        self.assertAlmostEqual(gas.sound_speed, math.sqrt(2), delta=1e-3)
        # The conductivity has no density in it: 2 / √π, times 1.029.
        self.assertAlmostEqual(gas.heat_diffusion * 4e-5 / math.pi * 2, 1.029 * 2 / math.sqrt(math.pi), delta=1e-3)
        # Nor has the viscosity: 1 / (2 √π), times 1.022. So the tail of C(t) is thinner, the greater both D and ν are.
        self.assertAlmostEqual(theory.viscosity(1e-5), 1.022 / (2 * math.sqrt(math.pi)), delta=1e-3)
        none, tail = theory.velocity_tail(0.45, [0.0, 5.0])
        self.assertTrue(math.isnan(none))
        density, spread = 4 * 0.45 / math.pi, theory.diffusion(0.45) + theory.viscosity(0.45) / (4 * 0.45 / math.pi)
        self.assertAlmostEqual(tail, 1 / (8 * math.pi * density * spread * 5))

    def test_waves_make_up_the_inside(self):
        # The squares of all parts of a function that is 1 inside add up to its width.
        _, shares = waves(56.0, 10.0)
        self.assertAlmostEqual(shares.sum(), 36 / 56, delta=0.01)

    def test_what_is_left_in_a_mean(self):
        scene = scene_of([(400, 500, 1, 0), (600, 500, -1, 0)], width=5_600, height=5_600)
        part, fluid = sampling(scene, 0, 10), Fluid(0.5)
        self.assertAlmostEqual(share_left(part, fluid, 1e-3), 1, delta=0.01)
        # A long mean has 2 / (time · rate) of the slowest wave, and of others less.
        slowest = 2 / (1e4 * FASTER * fluid.heat_diffusion * (2 * math.pi / 56) ** 2)
        self.assertTrue(0.6 * slowest < share_left(part, fluid, 1e4) < slowest)
        # The whole box keeps its heat.
        self.assertEqual(share_left(sampling(scene, 0, 0), fluid, 1.0), 0)


class Flows(unittest.TestCase):
    """Vortices of a box of 56 times 56 diameters."""

    def vortices(self, margin):
        scene = scene_of([(400, 500, 1, 0), (600, 500, -1, 0)], width=5_600, height=5_600)
        return Vortices(sampling(scene, 0, margin), 0.5)

    def test_each_has_its_own_energy(self):
        # Over the whole box none has a part in another, and the mean square of each is 1 / N.
        whole = self.vortices(0).products
        np.testing.assert_allclose(whole, np.eye(len(whole)) / 2, atol=1e-12)
        # The middle half moves with 1 - 2 / π of the squared mean sine and so on: the slowest one is slow there.
        self.assertLess(self.vortices(14).products[0, 0], 0.8 / 2)

    def test_the_slowest_falls_by_viscosity(self):
        rate = theory.viscosity(0.5) / (4 * 0.5 / math.pi) * 2 * (math.pi / 56) ** 2
        self.assertAlmostEqual(self.vortices(10).rates[0] / rate, 1)

    def test_they_carry_disks_along(self):
        # In a short time as far as velocities go; in a long one as a walk does, by 2 t over the rate.
        vortices = self.vortices(10)
        ways, integrals = (of(np.array([1e-3, 1e6])) for of in (vortices.ways, vortices.integrals))
        np.testing.assert_allclose(ways[0, 0, 0], 1e-6, rtol=1e-3)
        np.testing.assert_allclose(ways[1, 0, 0], 2e6 / vortices.rates[0], rtol=1e-3)
        # Half of what is by the velocity, as D is; it comes to half over the rate.
        np.testing.assert_allclose(integrals[:, 0, 0], [5e-4, 0.5 / vortices.rates[0]], rtol=1e-3)

    def test_what_a_series_shows_and_what_it_does_not_are_the_error(self):
        # The squares of an amplitude that falls by so much in a block; of the waves of 480 blocks 8 count.
        random = np.random.default_rng(10)
        for rate in (0.001, 0.01, 0.1):
            amplitudes, share = random.normal(size=(2000, 480)), math.exp(-rate)
            amplitudes[:, 1:] *= math.sqrt(1 - share**2)
            for block in range(1, 480):
                amplitudes[:, block] += share * amplitudes[:, block - 1]
            squares, steps = amplitudes**2, np.array([2 * rate * 480])
            shown = slowest(cosines(squares.T, 8) ** 2).mean()
            self.assertAlmostEqual(shown / 2, float(seen(steps, 8)[0]), delta=0.06)
            self.assertAlmostEqual(squares.mean(axis=1).var() / 2, float(left_in(steps)[0]), delta=0.06)

    def test_what_is_slow_beside_a_measure_is_unseen(self):
        vortices = self.vortices(10)
        moved = vortices.ways(np.array([10.0]))[0]
        short, long = (vortices.unseen(moved, time, 8) for time in (5.0, 50_000.0))
        whole = math.sqrt(2 * ((vortices.products * moved) ** 2).sum())
        self.assertTrue(0.5 * whole < short < whole)
        self.assertAlmostEqual(vortices.unseen(moved, 0.0, 8) / whole, 1, delta=0.01)
        self.assertLess(long, 0.01 * whole)


class Shares(unittest.TestCase):
    SIZES = ((1.0, 0.5), (1.4, 0.5))

    def test_what_follows_shares_at_one_pressure(self):
        # A tenth of a percent more great disks, where the packing fraction is found anew.
        from scipy.optimize import brentq

        def at(share, pressure=None):
            sizes, weights = np.array([1, 1.4]) / 1.2, [1 - share, share]
            mean, square = (np.average(sizes**power, weights=weights) for power in (1, 2))

            def pressure_of(phi):
                return 4 * phi / (math.pi * square) * theory.mixture_of(phi, mean, square)

            phi = 0.55 if pressure is None else brentq(lambda it: pressure_of(it) - pressure, 0.4, 0.65)
            return mean, square, phi, theory.mixture_of(phi, mean, square), pressure_of(phi)

        first = at(0.5)
        second = at(0.501, first[-1])
        found = (np.array(second[:2]) - first[:2]) @ slopes(0.55, *first[:2])
        np.testing.assert_allclose(found[:2], np.array(second[2:4]) - first[2:4], rtol=5e-3)

    def test_the_spread_of_shares_is_that_of_drawn_disks(self):
        # Z by the shares inside at the start of 160 scenes, at one pressure; so short a time leaves all of it.
        found, stated = [], []
        for seed in range(160):
            scene = make(200, 0.5, self.SIZES, seed, time=0.01)
            part = sampling(scene)
            composition = Composition(part)
            composition.add(part.inside(np.array(scene.disks)[:, :2]))
            small = composition.columns()[1][0]
            powers = (np.array([[1.0], [1.4]]) / 1.2) ** [1, 2]
            follows = slopes(composition.phi(), *powers.mean(axis=0))[:, 1]
            found.append([small - 0.5, 0.5 - small] @ powers @ follows)
            stated.append(composition.errors()[1])
        self.assertAlmostEqual(math.sqrt(np.mean(np.square(stated))) / np.std(found), 1, delta=0.2)
        # Of some that are drawn from these the mean differs by as much less as there are more of them.
        shares = composition.diameters[None] > 1
        some, whole = composition.drawn(shares, 25), composition.drawn(shares, 50)
        np.testing.assert_allclose(some, whole + composition.drawn(shares, 25, 50))
        # It is less in a mean over a time in which sizes mix.
        longer = Composition(sampling(replace(scene, end=scene.ticks(10 * composition.time()))))
        longer.presence, longer.looks = composition.presence, composition.looks
        self.assertLess(longer.errors()[1], 0.4 * stated[-1])
        self.assertEqual((len(composition.notes()), longer.notes()), (1, []))


    def composition(self):
        """That of 300 disks of two sizes, 100 of which are inside."""
        scene = make(300, 0.5, self.SIZES, time=0.01)
        found = Composition(sampling(scene))
        found.add(np.arange(300) < 100)
        return scene, found

    def test_pairs_follow_the_shares_at_their_centres(self):
        scene, composition = self.composition()
        parts, one = Partial(scene, (1, 1)), np.ones(1)
        half = composition.drawn(np.array([parts.size == 0]), 50, 100)[0] ** 0.5
        with mock.patch.object(Composition, "densities", lambda _: np.zeros(300)):
            # If each part is 1, pairs are as many whatever the shares; but a part is by the share of its size, which is 1/2.
            whole, first, mixed, last = parts.of_shares(one, [one, one, one], composition, 50.0)
            np.testing.assert_allclose([whole, first, mixed, last], [[0], [2 * half], [0], [2 * half]], atol=1e-12)
            # If the small ones alone have pairs, at each centre and around it: twice the half of the part's own.
            whole = parts.of_shares(one / 4, [one, 0 * one, 0 * one], composition, 50.0)[0]
            np.testing.assert_allclose(whole, composition.drawn(np.array([parts.size == 0]), 50) ** 0.5)

    def test_order_follows_sizes_by_squares(self):
        # Values are three times the diameter, and what has nothing to do with it.
        scene, composition = self.composition()
        places, inside = np.array(scene.disks)[:, :2], np.ones(300, bool)
        squares, random = Squares(composition, 2), np.random.default_rng(11)
        for _ in range(50):
            values = np.column_stack([3 * composition.diameters, np.zeros(300)]) + random.normal(size=(300, 2)) / 10
            squares.add(random.permutation(places), inside, values)
        wanted = 3 * composition.drawn(composition.diameters[None], 100)[0] ** 0.5
        np.testing.assert_allclose(squares.errors() / wanted, [1, 0], atol=0.1)
        self.assertFalse(Squares(composition, 2).is_known)


class Theory(unittest.TestCase):
    def test_a_mixture_has_its_second_virial_coefficient(self):
        # Each two collide at a distance D; with π D² / 2 each, Z is 1 + φ (1 + ⟨σ⟩² / ⟨σ²⟩) to the first order.
        sizes = [1.0] * 7 + [1.4] * 3
        self.assertAlmostEqual((theory.mixture(1e-5, sizes) - 1) / 1e-5, 1 + 1.12**2 / 1.288, delta=1e-3)
        self.assertAlmostEqual(theory.mixture(0.4, [2.0, 2.0]), theory.virial(0.4), delta=1e-6)

    def test_diffusion_of_a_thin_gas(self):
        # √(T / π m) / (2 ρ σ), where g at contact is 1 + 25 π ρ σ² / 64 to the first order.
        for density in (1e-4, 1e-3):
            found = theory.diffusion(math.pi / 4 * density) * 2 * density * math.sqrt(math.pi)
            self.assertAlmostEqual(found, 1 - 25 / 64 * math.pi * density, delta=1e-6 + density**2)

    def test_the_virial_series_meets_published_runs(self):
        # Erpenbeck and Luban, Physical Review A 32, 2920 (1985), by the area over that of the closest packing.
        for area, published in [(3, 2.0771), (2, 3.4243), (1.8, 4.1715), (1.6, 5.4963), (1.5, 6.6074)]:
            phi = math.pi / math.sqrt(12) / area
            self.assertAlmostEqual(theory.virial(phi) / published, 1, delta=5e-4)
            self.assertAlmostEqual(theory.henderson(phi) / published, 1, delta=2e-3)


class Fluids(unittest.TestCase):
    """What has to agree in equilibrium, within four errors or a few percent. The runs are the same every time."""

    def agree(self, first, second, least=0.0):
        (a, error), (b, other) = first, second
        self.assertLess(abs(a - b), 4 * math.hypot(error, other) + least, f"{a} +/- {error} and {b} +/- {other}")

    def measured(self, measure, phi=0.45, every=0.5, *more):
        scene, report = fluid(900, phi, 24.0, every)
        return measured(read_text(report, scene), measure(sampling(scene, blocks=10), *more))

    def test_virial_contact_and_walls_give_the_same_pressure(self):
        table = self.measured(Pressure)
        virial = value(table, "Z"), value(table, "Z_error")
        self.agree(virial, (value(table, "Z_wall"), value(table, "Z_wall_error")))
        self.agree(virial, (value(table, "Z_virial"), 0), 0.01)
        self.agree(virial, noted(self.measured(PairDistribution), "phi g"))

    @mock.patch("hard_disks.pressure.SAMPLES", 240)
    def test_errors_are_the_spread_over_seeds(self):
        # By 16 runs, so to some 20 %, and as short as is enough for a fit: error_ratios.py looks at all, with more disks and
        # seeds. One number of each way in
        # which errors are made: phi, by hydrodynamics; Z, which follows phi; P, by blocks as long as sound; six neighbours,
        # a mean over states, by waves and heat; D, by states that are compared; a fit.
        ways = [("pressure", "phi"), ("pressure", "Z"), ("pressure", "P"), ("psi6", "six_neighbours"), ("vacf", "D"),
                ("gr", "at contact g")]
        runs = []
        for seed in range(1, 17):
            scene, report = fluid(300, 0.4, 50.0, 1.0, seed=seed)
            found = {name: MEASURES[name].load()(sampling(scene)) for name, _ in ways}
            watch(read_text(report, scene), list(found.values()))
            tables = {name: measure.table() for name, measure in found.items()}
            runs.append([numbers(name, tables[name])[f"{name}: {number}"] for name, number in ways])
        values, errors = np.array(runs).T
        for way, ratio in zip(ways, np.sqrt((errors**2).mean(axis=1)) / values.std(axis=1, ddof=1)):
            self.assertTrue(0.55 < ratio < 1.8, (way, ratio))

    def test_sums_of_the_program_are_those_of_its_collisions(self):
        scene, report = fluid(300, 0.4, 20.0, 0.05)
        part = sampling(scene, start=0.0)
        by_sums, by_lines = Pressure(part), Pressure(part)
        watch(read_text(report, scene), [by_lines])
        watch(read_text(report_of(scene, "--format", "sums", "--margin", str(margin_in_units(part))), scene), [by_sums])
        for name in ("virial", "collisions", "wall", "time"):
            found, wanted = (getattr(it.counts, name).sum() for it in (by_sums, by_lines))
            self.assertAlmostEqual(found / wanted, 1, delta=1e-9)
        first, second = by_sums.table(), by_lines.table()
        for name in ("phi", "Z", "Z_wall", "P"):
            self.assertAlmostEqual(value(first, name) / value(second, name), 1, delta=2e-3)
            self.assertAlmostEqual(value(first, f"{name}_error") / value(second, f"{name}_error"), 1, delta=0.5)

    def test_collisions_are_as_often_as_the_pressure_says(self):
        # Z = 1 + √π / 4 times the collisions of a disk in σ / v.
        found, table = self.measured(Rate), self.measured(Pressure)
        by_rate = 1 + math.sqrt(math.pi) / 4 * value(found, "rate")
        self.agree((by_rate, value(found, "rate_error")), (value(table, "Z"), value(table, "Z_error")))
        self.assertAlmostEqual(value(found, "rate") / value(found, "rate_Enskog"), 1, delta=0.02)

    def test_flights_and_meetings_are_as_enskog_has_them(self):
        found, table = self.measured(Rate), self.measured(Paths)
        # A flight is over at each collision of a disk; those that leave the inside are left out, mostly long ones.
        self.assertAlmostEqual(noted(table, "mean free time")[0] * value(found, "rate"), 1, delta=0.04)
        self.assertAlmostEqual(noted(table, "mean free path")[0] / value(found, "free_path"), 1, delta=0.06)
        x, impacts = column(table, "x"), column(table, "impact_density")
        np.testing.assert_allclose(impacts[x < 1], 1, atol=0.08)
        self.assertEqual(impacts[x > 1].sum(), 0)
        rates, wanted = column(table, "speed_rate"), column(table, "speed_rate_Enskog")
        np.testing.assert_allclose(rates[(0.3 < x) & (x < 2.5)], wanted[(0.3 < x) & (x < 2.5)], rtol=0.08)

    def test_the_viscosity_is_as_enskog_has_it(self):
        scene, report = fluid(100, 0.5, 400.0, None)
        table = measured(read_text(report, scene), Viscosity(sampling(scene), 2.0))
        self.assertAlmostEqual(value(table, "viscosity_Enskog") / noted(table, "eta")[0], 1, delta=0.25)
        # At once there is the part of collisions alone: half of r · Δv has the mean square 1/2.
        found, rate = column(table, "viscosity"), value(measured(read_text(report, scene), Rate(sampling(scene))), "rate")
        at_once = found[0] - (found[1] - found[0])
        self.assertAlmostEqual(at_once / (len(scene.disks) / (scene.width * scene.height) * scene.sigma**2 * rate / 8), 1, delta=0.1)

    def test_scattering_is_by_what_structure_and_displacements_say(self):
        table = self.measured(Scattering, 0.45, 0.05, 1.0, 3.0)
        self.assertAlmostEqual(value(table, "F") / np.interp(3.0, *self.structure(0.05)), 1, delta=0.1)
        # Up to the second order in the exponent; at 3 / σ and up to σ / v that is enough.
        normal, shape = column(table, "Fs_Gauss")[1:], column(table, "alpha2")[1:]
        np.testing.assert_allclose(column(table, "Fs")[1:], normal * (1 + shape * np.log(normal) ** 2 / 2), atol=0.02)

    def structure(self, every):
        table = self.measured(StructureFactor, 0.45, every, 4.0)
        return column(table, "k"), column(table, "S")

    def test_local_fractions_make_up_the_whole(self):
        table = self.measured(LocalFraction, 0.45, 0.5, 4.0)
        middles, density = column(table, "phi_local"), column(table, "share")
        self.assertAlmostEqual(density.sum() * 0.02, 1)
        self.assertAlmostEqual(middles @ density * 0.02, value(self.measured(Rate), "phi"), delta=0.01)

    def test_displacements_and_velocities_give_the_same_diffusion(self):
        moved, turned = (self.measured(it, 0.45, 0.05, 5.0) for it in (Displacement, VelocityCorrelation))
        self.agree(noted(moved, "D"), noted(turned, "D"))
        # The integral of C over close frames, by the rule of Simpson.
        from scipy.integrate import simpson

        whole = simpson(column(turned, "C"), x=column(turned, "time"))
        self.agree((whole, 0), noted(turned, "D"))

    def test_speeds_are_maxwells(self):
        table = self.measured(Speeds)
        density, errors, wanted = (column(table, it) for it in ("density", "density_error", "Maxwell"))
        self.assertLess(np.abs(density - wanted).max(), 0.03)
        far = np.abs(density - wanted) > 4 * np.maximum(errors, 2e-3)
        self.assertLess(far.sum(), 3)
        self.agree(noted(table, "^2"), (2, 0), 0.02)

    def test_a_part_of_a_run_is_measured_as_a_shorter_run(self):
        scene, report = fluid(200, 0.4, 4.0, 0.25)
        shorter, whole = fluid(200, 0.4, 2.0, 0.25)
        # The report breaks off within the second line after the state at the end of the part.
        lines = report.splitlines(True)
        end = lines.index(f"state {shorter.end}\n") + 1 + len(scene.disks)
        broken = "".join(lines[: end + 1]) + lines[end + 1][:5]
        for measure, more in [(Pressure, ()), (PairDistribution, (2.0,)), (Displacement, (0.5,)), (Speeds, ())]:
            rows = [
                measured(it, measure(sampling(shorter, blocks=4), *more)).rows
                for it in (read_text(whole, shorter), Run(scene, io.StringIO(broken), until=shorter.end))
            ]
            np.testing.assert_array_equal(*rows)
        for tick in (0, scene.end):
            with self.assertRaisesRegex(Refused, "no part"):
                Run(scene, io.StringIO(report), until=tick)

    def test_pairs_of_sizes_add_up_to_all(self):
        scene, report = fluid(400, 0.4, 8.0, 0.5, ((1.0, 0.7), (1.4, 0.3)))
        table = measured(read_text(report, scene), PairDistribution(sampling(scene), most=3.0))
        whole, parts = column(table, "g"), [column(table, f"g_{it}") for it in ("00", "01", "11")]
        r = column(table, "r")
        # By their shares, which are those inside to a few percent.
        np.testing.assert_allclose((0.49 * parts[0] + 0.42 * parts[1] + 0.09 * parts[2])[r > 1.5], whole[r > 1.5], rtol=0.05)
        # None are nearer than they touch: at 1, 1.2 and 1.4 of the small diameter, where the mean is 1.12.
        for part, touching in zip(parts, (1, 1.2, 1.4)):
            self.assertEqual(part[r < touching / 1.12 - 0.02].sum(), 0)
            self.assertGreater(part[r > touching / 1.12][:3].max(), 1.5)

    def test_energy_walks_as_its_roundings_do(self):
        # Each component of an impulse is off by up to half a unit, so a collision changes the squares by √2 v, and 1/3 more.
        scene, report = fluid(900, 0.45, 24.0, 0.5)
        *_, sums = read_report(io.StringIO(report))
        change = sums.energies[1] - sums.energies[0] - sums.pairs / 3
        self.assertLess(abs(change), 4 * math.sqrt(2 * sums.pairs) * scene.speed)
        self.assertGreater(sums.pairs, 50_000)

    def test_the_structure_factor_begins_at_the_compressibility(self):
        table = self.measured(StructureFactor, 0.45, 0.5, 3.0)
        phi = 0.455
        slope = (theory.virial(phi + 1e-4) * (phi + 1e-4) - theory.virial(phi - 1e-4) * (phi - 1e-4)) / 2e-4
        self.assertAlmostEqual(column(table, "S")[1] * slope, 1, delta=0.25)

    def test_a_mixture_has_the_pressure_that_is_published(self):
        scene, report = fluid(400, 0.4, 8.0, 0.5, ((1.0, 0.7), (1.4, 0.3)))
        table = measured(read_text(report, scene), Pressure(sampling(scene)))
        for measure in (Pressure, Rate, PairDistribution, HexaticOrder):
            found = measured(read_text(report, scene), measure(sampling(scene)))
            shares = [value(found, f"share_{number}") for number in (0, 1)]
            np.testing.assert_allclose([sum(shares), shares[0]], [1, 0.7], atol=0.05)
            self.assertTrue(any("CAUTION: sizes mix in some" in it for it in found.notes), measure)
        # Sums don't tell which disks are inside.
        sums = report_of(scene, "--format", "sums", "--margin", str(margin_in_units(sampling(scene))))
        by_sums = measured(read_text(sums, scene), Pressure(sampling(scene)))
        self.assertAlmostEqual(value(by_sums, "Z_mixture") / value(table, "Z_mixture"), 1, delta=0.03)
        self.assertTrue(np.isnan([value(by_sums, it) for it in ("share_0", "Z_error_given_phi")]).all())
        self.assertNotIn("Z_Henderson", table.columns)
        self.agree((value(table, "Z"), value(table, "Z_error")), (value(table, "Z_mixture"), 0))

    def test_a_caution_says_if_other_sizes_are_inside(self):
        # One disk of 100 is inside, and two of 50 are at the walls: 100² is twice the mean square.
        disks = [(500, 500, 1, 0, 100), (60, 60, 1, 0, 50), (60, 940, 1, 0, 50)]
        for margin, said in [(2, ["CAUTION: the mean area of disks inside is 100.0% more than that of all"]), (0.5, [])]:
            scene = scene_of(disks)
            table = measured(read_text(end_of(scene), scene), Pressure(sampling(scene, 0, margin, 2)))
            self.assertEqual([it for it in table.notes if "mean area" in it], said)
            # One disk alone is a fluid of one size.
            if said:
                self.assertAlmostEqual(value(table, "Z_mixture"), theory.reference(value(table, "phi")))

    def test_the_same_code_is_compared_and_a_wrong_one_found(self):
        scene, report = fluid(200, 0.4, 1.0, 0.1)
        run, sizes = read_text(report, scene), np.array([row[4] for row in scene.disks]) / scene.sigma
        states = [
            np.column_stack([np.full(len(sizes), it.tick / scene.time), scene.reduced(it.rows), sizes])
            for it in read_text(report, scene).frames()
        ]
        found = np.concatenate(list(run.events()))
        events = np.column_stack([found[:, 0] / scene.time, found[:, 3], np.where(found[:, 4] < 0, -1 - found[:, 2], found[:, 4])])
        box, program = (scene.width / scene.sigma, scene.height / scene.sigma), find_program()
        right = compare(events, np.concatenate(states), *box, program)
        self.assertEqual((right.unexplained, right.count), ([], 10))
        self.assertGreater(len(right.same), 0.9 * len(events))
        self.assertLess(np.median(np.abs(right.table().rows[-1][2])), 1e-3)
        # It misses a collision, and has disks overlap in a state.
        missed = np.flatnonzero(events[:, 2] >= 0)[5]
        wrong = compare(np.delete(events, missed, axis=0), np.concatenate(states), *box, program)
        self.assertEqual(len(wrong.unexplained) + wrong.explained, 1 + right.explained)
        states[1][0, 1:3] = states[1][1, 1:3] + 0.3
        overlapping = compare(events, np.concatenate(states[:3]), *box, program)
        self.assertTrue(any("can't be" in it for it in overlapping.unexplained))

    def test_a_rest_by_the_report_is_what_cut_leaves(self):
        scene, report = fluid(200, 0.4, 1.0, 0.25)
        program = find_program()
        for tick in (scene.every, 3 * scene.every, scene.end):
            words = [program, "--mode", "cut", "--at", str(tick)]
            cut = subprocess.run(words, input=scene.text(), capture_output=True, text=True).stdout
            self.assertEqual(replace(rest(scene, io.StringIO(report), tick), every=None).text(), cut)

    def test_a_cut_run_goes_on_as_the_whole_one(self):
        scene, report = fluid(200, 0.4, 1.0, None)
        program = find_program()
        cut = [program, "--mode", "cut", "--at", str(scene.end)]
        longer = parse_scene(subprocess.run(cut, input=scene.text(), capture_output=True, text=True).stdout).timed(1.0, None)
        whole = subprocess.run([program], input=scene.timed(2.0, None).text(), capture_output=True, text=True).stdout
        part = subprocess.run([program], input=longer.text(), capture_output=True, text=True).stdout
        ends = [[line for line in it.splitlines() if line.startswith("disk")] for it in (whole, part)]
        self.assertEqual(scene.timed(2.0, None).end, scene.end + longer.end)
        self.assertEqual(*ends)


if __name__ == "__main__":
    main()

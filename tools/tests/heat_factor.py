#!/usr/bin/env python3
"""How much faster heat leaves the inside than by Enskog's conductivity, which is the constant FASTER of heat.py: by which
factor what is left of the heat's variance in means over some times is what hydrodynamics has left there.

    python3 tools/tests/heat_factor.py --phi 0.5 --time 200

It is run by hand, as it takes a quarter of a minute or so for each seed. In small boxes heat goes as fast as disks fly, and
nothing is found. `FOUND` has what was found for 2,000 disks at φ = 0.5 from 8 to 200 σ/v, by the seeds 1 to 16 and 17 to 49;
the constant is from 49 runs before, which said 1.25 to 1.3 from 8 σ/v on."""
import argparse

from physics_scenes import np

from hard_disks.equation import report_of
from hard_disks.heat import Heat, left_in_mean
from hard_disks.making import make
from hard_disks.measuring import watch
from hard_disks.pressure import Pressure
from hard_disks.program import find_program
from hard_disks.runs import Run
from hard_disks.sampling import sampling
from hard_disks.scenes import Scene

FOUND = """
| Time | Seeds 1 to 16 | Seeds 17 to 49 |
|---|---|---|
| 4 | 1.6 ± 0.7 | 1.4 ± 0.4 |
| 8 | 1.4 ± 0.3 | 1.4 ± 0.2 |
| 16 | 1.28 ± 0.20 | 1.15 ± 0.15 |
| 32 | 1.00 ± 0.20 | 1.11 ± 0.14 |
| 48 | 1.01 ± 0.17 | 1.06 ± 0.14 |
| 64 | 0.86 ± 0.18 | 1.63 ± 0.27 |
| 96 | 0.86 ± 0.16 | 1.10 ± 0.19 |
"""
# Variances are compared with that of means over this time, in σ / v: collisions even out what is shorter.
SHORT = 2.0
TIMES = (4, 8, 16, 32, 48, 64, 96)
FACTORS = np.arange(0.3, 3, 0.05)


def heat_of(scene: Scene, start: float, program: str) -> Heat:
    """The heat of the inside in a run, as the measure of pressure keeps it: at so many ticks that means over a short time have
    no noise of their own."""
    measure = Pressure(sampling(scene, start))
    with report_of(scene, program) as report:
        watch(Run(scene, report), [measure])
    return measure.errors.heat


def entropies(heats: list[Heat]) -> np.ndarray:
    """That of a disk inside at each state of each run, less the mean over all runs: one run's own mean is what varies here."""
    count = min(len(it.rows) for it in heats)
    _, disks, squares = np.array([it.rows[:count] for it in heats], float).transpose(2, 0, 1)
    temperature = squares / disks
    found = temperature / temperature.mean() - heats[0].fluid.factor * disks / disks.mean()
    return found - found.mean()


def variance_of_means(values: np.ndarray, blocks: int) -> float:
    """That of the means of rows over so many blocks."""
    used = values.shape[1] // blocks * blocks
    return float((values[:, :used].reshape(len(values), blocks, -1).mean(axis=2) ** 2).mean())


def factor(heat: Heat, values: np.ndarray, time: float) -> float:
    """The factor by which hydrodynamics has left what is left in means over a time, of the variance of means over `SHORT`."""
    part = heat.sampling
    whole = (part.scene.end - part.start) / part.scene.time
    long, short = round(whole / time), round(whole / SHORT)
    left = variance_of_means(values, long) / variance_of_means(values, short)
    rates = FACTORS * heat.fluid.heat_diffusion
    wanted = [left_in_mean(part, it, whole / long) / left_in_mean(part, it, whole / short) for it in rates]
    return float(np.interp(left, wanted[::-1], FACTORS[::-1]))


def write(heats: list[Heat]) -> None:
    """Factors, with errors by leaving out each run in turn."""
    part, values = heats[0].sampling, entropies(heats)
    print("| Time | Factor | Error |\n|---|---|---|")
    for time in (it for it in TIMES if it * part.scene.time <= part.scene.end - part.start):
        others = [factor(heats[0], np.delete(values, run, axis=0), time) for run in range(len(heats))]
        error = np.sqrt((len(heats) - 1) * np.var(others))
        print(f"| {time} | {factor(heats[0], values, time):.2f} | {error:.2f} |")


def main() -> None:
    words = argparse.ArgumentParser(description="how much faster heat leaves than by Enskog")
    words.add_argument("--phi", type=float, default=0.5)
    words.add_argument("--disks", type=int, default=2000)
    words.add_argument("--time", type=float, default=200)
    words.add_argument("--from", dest="start", type=float, default=8)
    words.add_argument("--seed", type=int, default=1, help="the first one")
    words.add_argument("--seeds", type=int, default=49)
    asked, program = words.parse_args(), find_program()
    seeds = range(asked.seed, asked.seed + asked.seeds)
    scenes = (make(asked.disks, asked.phi, seed=seed, time=asked.time) for seed in seeds)
    write([heat_of(scene, asked.start, program) for scene in scenes])


if __name__ == "__main__":
    main()

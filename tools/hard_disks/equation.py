"""The equation of state: makes scenes for each packing fraction, has the program run them, and measures their pressure."""
import subprocess
from contextlib import contextmanager
from dataclasses import dataclass
from tempfile import TemporaryFile
from typing import Iterator, TextIO

from .making import make
from .measuring import Measure, together, watch
from .part_sums import margin_in_units
from .pressure import Pressure
from .runs import Run
from .sampling import Definition, OfErrors, Stated, Table, sampling
from .scenes import Scene
from .structure import CONTACT_Z, PairDistribution
from .theory import cautions, whole_fraction

# How far g(r) is counted to find it at contact, in σ.
NEAR = 1.5
# In how many times of a run the program sums up, if no states are asked for.
SUMS = 1_250
# How notes begin that say why a number may be wrong.
CAUTION = "CAUTION"


@contextmanager
def report_of(scene: Scene, program: str, *words: str) -> Iterator[TextIO]:
    """The report of a scene, as the program writes it by these words."""
    with TemporaryFile("w+") as file:
        file.write(scene.text())
        file.seek(0)
        with subprocess.Popen([program, *words], stdin=file, stdout=subprocess.PIPE, text=True) as running:
            yield running.stdout


@dataclass(frozen=True)
class Series:
    """What the runs have in common: `seeds` of each packing fraction, with one seed after the other. Times are in σ / v,
    the margin is in σ; with `every` Z is found by states too."""

    disks: int
    time: float
    seed: int = 1
    seeds: int = 1
    every: float | None = None
    margin: float | None = None
    # Whether the packing fractions asked for are those away from the walls.
    is_inside: bool = False

    def measured(self, phi: float, seed: int, program: str) -> list[Measure]:
        """The measures of one run."""
        whole = whole_fraction(phi, self.disks, [(1.0, 1.0)]) if self.is_inside else phi
        scene = make(self.disks, whole, seed=seed, time=self.time, every=self.every or self.time / SUMS)
        part = sampling(scene, margin=self.margin)
        found, words = [Pressure(part)], ["--format", "sums", "--margin", str(margin_in_units(part))]
        if self.every is not None:
            found, words = [*found, PairDistribution(part, NEAR)], []
        with report_of(scene, program, *words) as report:
            watch(Run(scene, report, shows_progress=True), found)
        return found

    def row(self, phi: float, program: str) -> Table:
        """The row of `measure pressure` after the packing fraction that was asked for, and Z by g at contact."""
        runs = [self.measured(phi, seed, program) for seed in range(self.seed, self.seed + self.seeds)]
        pressure, *others = [together(list(it)) for it in zip(*runs)]
        columns, row = ["asked_for", *pressure.columns], [phi, *pressure.rows[0]]
        for note in (it for table in others for it in table.notes):
            if isinstance(note, Stated) and note.name == CONTACT_Z:
                columns, row = [*columns, "Z_contact", "Z_contact_error"], [*row, note.value, note.error]
        texts = [it for it in pressure.notes if isinstance(it, str)]
        kept = [it for it in texts if isinstance(it, (Definition, OfErrors)) and not it.startswith(CAUTION)]
        # Up to where equations of state hold is said once for all rows.
        own = [it for it in texts if it.startswith(CAUTION) and it not in cautions(1.0)]
        return Table(columns, [row], [*self.notes(), *kept, *(it.replace(CAUTION, f"{CAUTION} at {phi:g}", 1) for it in own)])

    def notes(self) -> list[str]:
        by = f"by the spread over {self.seeds} runs" if self.seeds > 1 else "by one run"
        return [f"{self.disks} disks, {self.time:g} sigma/v, of which a fifth is left out; errors {by}; phi is that inside"]


def equation_of_state(fractions: list[float], series: Series, program: str) -> Iterator[Table]:
    """For each packing fraction a table of one row, as soon as it is known; after the first one the notes are those that are
    of its row alone."""
    for place, phi in enumerate(fractions):
        table = series.row(phi, program)
        own = f"{CAUTION} at"
        table.notes = [it for it in table.notes if it.startswith(own)] if place else [*table.notes, *cautions(max(fractions))]
        yield table

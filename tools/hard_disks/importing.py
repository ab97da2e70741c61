"""Reads disks that another program wrote: a table, what ASE reads, data of LAMMPS, or GSD. Of several frames the last one."""
import csv
import re
from dataclasses import dataclass, replace
from pathlib import Path
from typing import TextIO

import numpy as np

from .scenes import Refused

COLUMNS = ("x", "y", "vx", "vy", "diameter")
# Where a line of LAMMPS's section Atoms has x, by its style; the diameter is at 2 where the style is sphere.
PLACES = {"atomic": 2, "charge": 3, "bond": 3, "angle": 3, "molecular": 3, "full": 4, "sphere": 4}
DATA_ENDINGS = (".data", ".lmp", ".lammps")


@dataclass(frozen=True)
class Disks:
    """Disks in a box whose lower left corner is the origin, in any units. What a file doesn't say is None."""

    origin: np.ndarray
    sides: np.ndarray
    places: np.ndarray
    velocities: np.ndarray | None
    diameters: np.ndarray | None
    is_periodic: bool = False

    def rows(self) -> np.ndarray:
        """Rows of x, y, vx, vy and the diameter, from the corner on."""
        if self.diameters is None:
            raise Refused("the file says no diameters: give one by --diameter")
        return np.column_stack([self.places - self.origin, self.velocities, self.diameters])

    def placed(self) -> "Disks":
        """The same, with all places in the box if it repeats."""
        if not self.is_periodic:
            return self
        return replace(self, places=self.origin + (self.places - self.origin) % self.sides)

    def cut(self, left: float, right: float, bottom: float, top: float) -> "Disks":
        """Those that are wholly in a window, which becomes the box."""
        low, high = np.array([left, bottom]), np.array([right, top])
        slack = 1e-9 * self.sides
        if (low < self.origin - slack).any() or (high > self.origin + self.sides + slack).any():
            raise Refused("the window reaches beyond the box")
        radii = self.rows()[:, 4:] / 2
        whole = ((self.places >= low + radii) & (self.places <= high - radii)).all(axis=1)
        if not whole.any():
            raise Refused("no disk is wholly in the window")
        return Disks(low, high - low, self.places[whole], self.velocities[whole], self.diameters[whole])

    def moving(self, seed: int) -> "Disks":
        """The same with Maxwell's velocities, whose sum is 0, if the file has none."""
        if self.velocities is not None:
            return self
        drawn = np.random.default_rng(seed).normal(size=self.places.shape)
        return replace(self, velocities=drawn - drawn.mean(axis=0) if len(drawn) > 1 else drawn)


def read_table(stream: TextIO, width: float, height: float) -> Disks:
    """Comma-separated values with a first line of names; a table without vx and vy has no velocities."""
    table = csv.DictReader(stream)
    named = set(table.fieldnames or [])
    wanted = [it for it in COLUMNS if it in named or it not in ("vx", "vy") or {"vx", "vy"} & named]
    if missing := [it for it in wanted if it not in named]:
        raise Refused(f"the first line has no {', '.join(missing)}")
    try:
        rows = np.array([[float(row[name]) for name in wanted] for row in table]).reshape(-1, len(wanted))
    except (TypeError, ValueError, csv.Error) as why:
        raise Refused(f"line {table.line_num}: {why}") from why
    velocities = rows[:, 2:4] if "vx" in wanted else None
    return Disks(np.zeros(2), np.array([width, height]), rows[:, :2], velocities, rows[:, -1])


def read_file(path: str) -> Disks:
    """The disks of a file, by how its name ends."""
    ending = Path(path).suffix.lower()
    if ending == ".gsd":
        return read_gsd(path)
    return read_data(path) if ending in DATA_ENDINGS else read_by_ase(path)


def read_by_ase(path: str) -> Disks:
    from ase.io import read
    from ase.io.formats import UnknownFileTypeError

    try:
        atoms = read(path)
    except UnknownFileTypeError as why:
        raise Refused(f"{path} is no file that ASE reads, nor one that ends in .gsd or {', '.join(DATA_ENDINGS)}: {why}") from why
    except (ValueError, KeyError, IndexError, AssertionError) as why:
        raise Refused(f"{path} can't be read: {why}") from why
    cell, arrays = np.array(atoms.cell), atoms.arrays
    if cell[0, 1] or cell[1, 0] or not (cell[0, 0] > 0 and cell[1, 1] > 0):
        raise Refused(f"{path} has no box with sides along x and y")
    sides = np.diag(cell)[:2]
    velocities = arrays["velo"] if "velo" in arrays else atoms.get_velocities() if "momenta" in arrays else None
    diameters = 2 * arrays["radius"] if "radius" in arrays else arrays.get("diameter")
    origin = np.array(atoms.get_celldisp()).ravel()[:2]
    if not origin.any():
        origin = corner(atoms.positions[:, :2], sides)
    found = Disks(
        origin, sides, atoms.positions[:, :2], None if velocities is None else velocities[:, :2], diameters, bool(atoms.pbc[:2].any())
    )
    return found.placed()


def corner(places: np.ndarray, sides: np.ndarray) -> np.ndarray:
    """The lower left corner of a box whose file doesn't say it: a box is centred at 0 if it has all places then, and some are
    below 0."""
    is_centred = (places < 0).any() and (np.abs(places) <= sides / 2).all()
    return -sides / 2 if is_centred else np.zeros(2)


def read_data(path: str) -> Disks:
    """LAMMPS's data; ASE forgets where its box begins, and knows no diameters."""
    text = re.sub(r"(?m)^(?!\s*Atoms).*", lambda line: line[0].split("#")[0], Path(path).read_text(encoding="utf-8"))
    bounds = [re.search(rf"^\s*(\S+)\s+(\S+)\s+{axis}lo {axis}hi", text, re.M) for axis in "xy"]
    sections = dict(re.findall(r"^\s*(Atoms|Velocities)\b(.*(?:\n(?!\s*[A-Z]).*)*)", text, re.M))
    if "Atoms" not in sections or not all(bounds):
        raise Refused(f"{path} is no data of LAMMPS: it has no bounds xlo xhi and ylo yhi, or no Atoms")
    style, _, body = sections["Atoms"].partition("\n")
    style = style.strip(" #\t") or "atomic"
    if style not in PLACES:
        raise Refused(f"{path}: of the styles of Atoms there are {', '.join(PLACES)}, not {style}")
    try:
        low, high = np.array([[float(it) for it in bound.groups()] for bound in bounds]).T
        rows = by_number(body)
        places = rows[:, PLACES[style] : PLACES[style] + 2]
        velocities = by_number(sections["Velocities"])[:, 1:3] if "Velocities" in sections else None
    except ValueError as why:
        raise Refused(f"{path}: {why}") from why
    if places.shape[1] < 2 or velocities is not None and velocities.shape != places.shape:
        raise Refused(f"{path}: Atoms or Velocities have too few numbers")
    diameters = rows[:, 2] if style == "sphere" else None
    return Disks(low, high - low, places, velocities, diameters, is_periodic=True).placed()


def by_number(text: str) -> np.ndarray:
    """The rows of a section, in the order of their first number."""
    rows = np.array([line.split() for line in text.splitlines() if line.strip()], float)
    return rows[np.argsort(rows[:, 0], kind="stable")]


def hoomd_files():
    """The module that knows GSD; tools/setup doesn't install it."""
    try:
        import gsd.hoomd
    except ModuleNotFoundError as why:
        raise Refused("GSD takes the module gsd: Debian's python3-gsd") from why
    return gsd.hoomd


def read_gsd(path: str) -> Disks:
    """A file of HOOMD; its boxes repeat, and their middle is 0."""
    with hoomd_files().open(path) as file:
        if not len(file):
            raise Refused(f"{path} has no frame")
        frame = file[-1]
        box, particles = np.array(frame.configuration.box, float), frame.particles
        if box[3]:
            raise Refused(f"{path} has no box with sides along x and y")
        places, velocities = (np.array(it, float)[:, :2] for it in (particles.position, particles.velocity))
        # A file without velocities is read as if all were 0.
        velocities = velocities if velocities.any() else None
        return Disks(-box[:2] / 2, box[:2], places, velocities, np.array(particles.diameter, float), is_periodic=True).placed()

"""Writes frames for ASE, OVITO, VMD, freud, HOOMD and LAMMPS, and collisions for pandas."""
from typing import Iterator

import numpy as np

from .importing import hoomd_files
from .runs import NO_EVENTS, Run, table_of


def sizes(run: Run) -> tuple[np.ndarray, np.ndarray]:
    """The radius of each disk in σ, and the number of its size, the least being 0."""
    radii = np.array([row[4] for row in run.scene.disks]) / (2 * run.scene.sigma)
    return radii, np.unique(radii, return_inverse=True)[1]


def atoms(run: Run) -> Iterator:
    """Each frame as ASE's Atoms without velocities, which are beside it, in σ and v, in the plane z = 0 and a box that doesn't
    repeat.

    Disks are of ASE's element X, which has the mass 1. Their tags number the sizes."""
    from ase import Atoms

    scene, (radii, tags) = run.scene, sizes(run)
    flat = np.zeros((len(radii), 1))
    for frame in run.frames():
        places, velocities = np.hsplit(scene.reduced(frame.rows), 2)
        found = Atoms(
            numbers=np.zeros(len(radii), int), tags=tags, positions=np.hstack([places, flat]),
            cell=[scene.width / scene.sigma, scene.height / scene.sigma, 1.0], pbc=False,
            info={"time": scene.reduced_time(frame.tick), "tick": frame.tick},
        )
        found.set_array("radius", radii)
        yield found, np.hstack([velocities, flat])


def write_xyz(run: Run, path) -> None:
    """Extended XYZ, frame by frame."""
    from ase.io import write

    with open(path, "w", encoding="ascii") as file:
        for frame, velocities in atoms(run):
            # OVITO and VMD know velocities by this name; to ASE they are an array.
            frame.set_array("velo", velocities)
            write(file, frame, format="extxyz")


def write_trajectory(run: Run, path) -> None:
    """A trajectory of ASE's own format."""
    from ase.io.trajectory import Trajectory

    with Trajectory(path, "w") as file:
        for frame, velocities in atoms(run):
            frame.set_velocities(velocities)
            file.write(frame)


def write_gsd(run: Run, path) -> None:
    """HOOMD's GSD: a box in two dimensions, whose middle is 0."""
    hoomd, scene, (radii, types) = hoomd_files(), run.scene, sizes(run)
    box = np.array([scene.width, scene.height]) / scene.sigma
    flat = np.zeros((len(radii), 1))
    with hoomd.open(path, "wb") as file:
        for frame in run.frames():
            places, velocities = np.hsplit(scene.reduced(frame.rows), 2)
            # Its releases call it differently.
            found = (getattr(hoomd, "Frame", None) or hoomd.Snapshot)()
            found.configuration.step, found.configuration.dimensions = frame.tick, 2
            found.configuration.box = [*box, 0, 0, 0, 0]
            particles = found.particles
            particles.N, particles.types = len(radii), [chr(ord("A") + it) for it in range(types.max() + 1)]
            particles.position, particles.velocity = np.hstack([places - box / 2, flat]), np.hstack([velocities, flat])
            particles.typeid, particles.diameter = types, 2 * radii
            file.append(found)


def write_dump(run: Run, path) -> None:
    """LAMMPS's dump as text, with types from 1 on."""
    scene, (radii, types) = run.scene, sizes(run)
    numbers = np.arange(1, len(radii) + 1)
    head = f"ITEM: NUMBER OF ATOMS\n{len(radii)}\nITEM: BOX BOUNDS ff ff pp\n0 {scene.width / scene.sigma:.10g}\n"
    head += f"0 {scene.height / scene.sigma:.10g}\n-0.5 0.5\nITEM: ATOMS id type x y z vx vy vz radius"
    with open(path, "w", encoding="ascii") as file:
        for frame in run.frames():
            places, velocities = np.hsplit(scene.reduced(frame.rows), 2)
            flat = np.zeros(len(radii))
            rows = np.column_stack([numbers, types + 1, places, flat, velocities, flat, radii])
            file.write(f"ITEM: TIMESTEP\n{frame.tick}\n")
            np.savetxt(file, rows, "%d %d" + " %.10g" * 7, header=head, comments="")


def write_csv(run: Run, path) -> None:
    """Comma-separated values with a first line of names; what a collision hasn't is empty."""
    with open(path, "w", encoding="ascii") as file:
        table_of(NO_EVENTS).to_csv(file, index=False)
        for table in run.collision_tables():
            table.to_csv(file, index=False, header=False)


FORMATS = {"xyz": write_xyz, "csv": write_csv, "ase": write_trajectory, "gsd": write_gsd, "dump": write_dump}

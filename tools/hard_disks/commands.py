"""The words of `python3 -m hard_disks`."""
import argparse
import contextlib
import os
import sys
from dataclasses import dataclass
from pathlib import Path

from .scene_text import GOES_ON, parse_scene, read_scene
from .scenes import MOST_DISKS, MOST_TICK, Refused
from .words import bounds, bounds_of, by_measure, fractions, not_negative, positive, sizes, whole, window

ABOUT = "From a packing fraction to a figure: scenes for the program hard_disks, and what its reports say."
TIMES = "times are in sigma/v, with sigma the mean diameter and v the root mean square of a velocity component"


@dataclass(frozen=True)
class Kind:
    """A measure: its module and class, what it is, and which options of its own it takes."""

    home: str
    about: str
    most: str = ""  # what --most bounds, and how far it goes without
    has_width: bool = False
    has_wave: bool = False
    has_series: bool = False

    def load(self):
        """The class; its module needs numpy."""
        from importlib import import_module

        module, name = self.home.split(".")
        return getattr(import_module(f".{module}", __package__), name)


MEASURES = {
    "pressure": Kind("pressure.Pressure", "Z = P A / (N T) by the virial and by the walls", has_series=True),
    "rate": Kind("pressure.Rate", "how often a disk collides, and its mean free path", has_series=True),
    "gr": Kind(
        "structure.PairDistribution", "the pair distribution g(r), and Z by g at contact", "r, in sigma (5)", has_width=True
    ),
    "sk": Kind("structure.StructureFactor", "the structure factor S(k)", "k, in 1/sigma (15)", has_width=True),
    "psi6": Kind("structure.HexaticOrder", "the hexatic bond order psi6", has_series=True),
    "g6": Kind("hexatic.BondCorrelation", "how far bond order reaches, g6(r)", "r, in sigma (20)", has_width=True),
    "profile": Kind(
        "profiles.Profile", "phi, T and psi6 by the distance from the walls, and P by the density there",
        "distance, in sigma (half of the box)", has_width=True,
    ),
    "msd": Kind("dynamics.Displacement", "the mean squared displacement, and D by its slope", "time between states (10)"),
    "vacf": Kind("dynamics.VelocityCorrelation", "the velocity correlation, and D by its integral", "time between states (10)"),
    "paths": Kind(
        "paths.Paths", "free times and free paths, impact parameters, and how often disks collide by their speed",
        "all of these (5)", has_width=True,
    ),
    "viscosity": Kind("viscosity.Viscosity", "the shear viscosity by Helfand's sum", "time between sums (2)"),
    "scatter": Kind(
        "scattering.Scattering", "Fs(k,t), F(k,t) and the non-Gaussian parameter", "time between states (10)", has_wave=True
    ),
    "local": Kind("local.LocalFraction", "packing fractions of squares, whose side is the width", has_width=True),
    "speeds": Kind(
        "dynamics.Speeds", "the distribution of speeds beside Maxwell's", "speed, in v (5)", has_width=True, has_series=True
    ),
}


class Words(argparse.ArgumentParser):
    """A parser that refuses in one line."""

    def error(self, message):
        self.exit(2, f"{self.prog}: {' '.join(message.split())}\n")


def measures(text):
    """gr,psi6 as the names of measures."""
    names = text.split(",")
    for name in names:
        if name not in MEASURES:
            raise argparse.ArgumentTypeError(f"there is no measure {name!r}; there are {', '.join(MEASURES)}")
    if len(set(names)) < len(names):
        raise argparse.ArgumentTypeError(f"{text} names a measure twice")
    return names


def parser():
    words = Words(prog="python3 -m hard_disks", description=ABOUT)
    commands = words.add_subparsers(dest="command", required=True, metavar="COMMAND", parser_class=Words)
    add_scene(commands)
    add_fit(commands)
    add_explain(commands)
    add_rest(commands)
    add_continue(commands)
    add_margin(commands)
    add_measure(commands)
    add_plot(commands)
    add_draw(commands)
    add_convert(commands)
    add_check(commands)
    add_equation(commands)
    add_compare(commands)
    return words


def add_command(commands, name, call, about, more=""):
    found = commands.add_parser(name, help=about, description=f"{about[0].upper()}{about[1:]}. {more}".strip())
    found.set_defaults(call=call)
    return found


def add_times(words, time):
    words.add_argument("--time", type=not_negative, default=time, help=f"how long the run is; {TIMES} (%(default)s)")
    words.add_argument("--every", type=positive, help="the time between two written states (only the end is written)")


def say(what):
    """Says something that is no output, in one line."""
    print(f"hard_disks: {' '.join(what.split())}", file=sys.stderr)


def standard_input(wanted):
    """Standard input; whoever sits at a terminal is told that it is waited for."""
    if sys.stdin is None:
        raise Refused("standard input is closed")
    if sys.stdin.isatty():
        say(f"waiting for {wanted} on standard input, as by <FILE")
    return sys.stdin


def add_report(words):
    words.add_argument("scene", metavar="SCENE", help="the scene's file; the report is read from standard input")


def add_scene(commands):
    words = add_command(commands, "scene", run_scene, "writes a scene of a packing fraction", "Units are as fine as fits.")
    words.add_argument("--disks", type=whole(1, MOST_DISKS), default=2000, help="(%(default)s)")
    phi = words.add_mutually_exclusive_group(required=True)
    phi.add_argument("--phi", type=positive, help="packing fraction over the whole box")
    phi.add_argument("--phi-inside", type=positive, help="that of the fluid away from the walls, to 0.003 or so")
    words.add_argument(
        "--sizes", type=sizes, default=[(1.0, 1.0)], metavar="D:SHARE,..", help="relative diameters, as 1:0.7,1.4:0.3"
    )
    words.add_argument("--seed", type=whole(0, MOST_TICK), default=1, help="(%(default)s)")
    words.add_argument(
        "--lattice", choices=["hex", "square", "random", "soft"], default="hex", help="where disks begin (%(default)s)"
    )
    words.add_argument(
        "--speeds", choices=["normal", "equal"], default="normal", help="equal: all of one speed, which Boltzmann's H falls from (%(default)s)"
    )
    add_times(words, 40.0)


def run_scene(asked):
    from .making import make
    from .theory import whole_fraction

    phi = asked.phi
    if asked.phi_inside is not None:
        if asked.phi_inside >= 1:
            raise Refused(f"no packing fraction is {asked.phi_inside:g}")
        phi = whole_fraction(asked.phi_inside, asked.disks, asked.sizes)
    made = make(asked.disks, phi, asked.sizes, asked.seed, asked.lattice, asked.time, asked.every, asked.speeds)
    sys.stdout.write(made.text())


def add_fit(commands):
    words = add_command(commands, "fit", run_fit, "writes a scene of your own disks, in any units",
                        "Without FILE comma-separated values with a first line x,y,vx,vy,diameter are read from standard input.")
    words.add_argument("file", nargs="?", metavar="FILE",
                       help="what ASE reads, as extended XYZ; data of LAMMPS (.data, .lmp, .lammps), or .gsd; the last frame")
    words.add_argument("--width", type=positive, help="of the box, which begins at (0, 0), in your units; a FILE says it")
    words.add_argument("--height", type=positive)
    words.add_argument("--diameter", type=positive, help="of all disks, in your units, whatever the file says")
    words.add_argument("--cut", type=window, metavar="X:X,Y:Y",
                       help="takes the disks that are wholly in this window, which becomes the box; as --cut=-5:5,-5:5")
    words.add_argument("--seed", type=whole(0, MOST_TICK), default=1, help="of velocities, where the file has none (%(default)s)")
    add_times(words, 40.0)


def disks_of(asked):
    """The disks that are asked for, each with a velocity."""
    from dataclasses import replace

    import numpy

    from .importing import read_file, read_table

    if asked.file is None and None in (asked.width, asked.height):
        raise Refused("a table says no box: give its --width and --height")
    if asked.file is not None and (asked.width or asked.height):
        raise Refused("--width and --height are of a table: a file says its own box")
    found = read_file(asked.file) if asked.file else read_table(standard_input("a table"), asked.width, asked.height)
    if asked.diameter is not None:
        found = replace(found, diameters=numpy.full(len(found.places), asked.diameter))
    found = found.moving(asked.seed)
    return found.cut(*asked.cut) if asked.cut else found


def run_fit(asked):
    from .fitting import fit

    disks = disks_of(asked)
    rows, (width, height) = disks.rows(), disks.sides
    try:
        scene = fit(width, height, rows, asked.time, asked.every)
    except Refused as why:
        hint = "; its box repeats, and one with walls is wanted: take --cut" if disks.is_periodic and "inside the box" in str(why) else ""
        raise Refused(f"{why}{hint}") from why
    # What a mean diameter is of the greater side, in the scene and as it was given.
    lost = 1 - scene.sigma / max(scene.width, scene.height) * max(width, height) / rows[:, 4].mean()
    if lost > 1e-5:
        say(f"diameters are {lost:.2%} smaller: disks that touch have no room to move in")
    sys.stdout.write(scene.text())


def add_explain(commands):
    words = add_command(commands, "explain", run_explain, "says in words what is wrong with a scene that the program refuses",
                        "The status is 1 if something is.")
    words.add_argument("scene", metavar="SCENE", help="the scene's file")


def run_explain(asked):
    from .explaining import explain, jammed

    with open(asked.scene, "rb") as file:
        text = file.read()
    if found := explain(text):
        sys.exit("\n".join(found))
    print("nothing is wrong with this scene")
    if hint := jammed(parse_scene(text)):
        print(f"CAUTION: {hint}")


def add_rest(commands):
    words = add_command(commands, "rest", run_rest, "writes what is left of a scene after a state in its report, as a scene",
                        "The report may break off, as that of a run that was stopped.")
    add_report(words)
    words.add_argument("--tick", type=whole(0, MOST_TICK), help="the tick of the state (the last whole one)")


def run_rest(asked):
    report = standard_input("a report")
    from .rests import rest

    sys.stdout.write(GOES_ON + rest(read_scene(asked.scene), report, asked.tick).text())


def add_continue(commands):
    words = add_command(commands, "continue", run_continue, "writes a scene that goes on from a rest, for a time of its own",
                        "A rest is what the command rest writes, or the program with --mode cut --at TICK.")
    words.add_argument("rest", metavar="REST", help="the rest's file")
    add_times(words, 40.0)


def run_continue(asked):
    sys.stdout.write(GOES_ON + read_scene(asked.rest).timed(asked.time, asked.every).text())


def add_margin(commands):
    words = add_command(commands, "margin", run_margin, "writes the program's --margin for sums that measure pressure and rate take",
                        "As in ./hard_disks --format sums --margin $(python3 -m hard_disks margin SCENE) <SCENE.")
    words.add_argument("scene", metavar="SCENE", help="the scene's file")
    add_layer(words)


def add_layer(words):
    words.add_argument(
        "--margin", type=not_negative,
        help="how much along the walls is left out, in sigma (10, near freezing up to 20, or a quarter of the box)",
    )


def run_margin(asked):
    from .part_sums import margin_in_units
    from .sampling import sampling

    print(margin_in_units(sampling(read_scene(asked.scene), 0.0, asked.margin)))


def add_measure(commands):
    listed = "; ".join(f"{name}: {kind.about}" for name, kind in MEASURES.items())
    words = add_command(commands, "measure", run_measure, "writes tables of what a report says, with errors",
                        f"{listed}. Tables are comma-separated values in reduced units; {TIMES}.")
    words.add_argument("measures", type=measures, metavar="MEASURE,..", help="of one pass over the report, as gr,psi6")
    words.add_argument("scenes", nargs="+", metavar="SCENE",
                       help="the scene's file; the report is read from standard input. Of several scenes, runs that differ by"
                            " their seeds alone, each report is beside its scene, and ends in .report")
    words.add_argument("-o", "--output", metavar="FOLDER", help="writes each table into a file MEASURE.csv of this folder")
    words.add_argument("--from", dest="start", type=not_negative, help="when the measure begins (a fifth of the run; of a rest its start)")
    words.add_argument("--until", type=positive, help="when it ends, as if the run did: the report may break off after that")
    add_layer(words)
    words.add_argument("--blocks", type=whole(2, 10_000), default=20, help="rows of a series over collisions (%(default)s)")
    words.add_argument("--series", action="store_true",
                       help=f"a row for each block or state in place of means: {those_with('has_series')}")
    bounds = ", ".join(f"{name} {kind.most}" for name, kind in MEASURES.items() if kind.most)
    words.add_argument("--most", type=by_measure, default={}, metavar="NUMBER",
                       help=f"how far a table goes: {bounds}; of several, as gr=4,sk=9")
    words.add_argument("--width", type=by_measure, default={}, metavar="NUMBER",
                       help=f"the width of a bin: {those_with('has_width')}; of several, as gr=0.01,sk=0.1")
    words.add_argument("--wave", type=by_measure, default={}, metavar="NUMBER",
                       help=f"the wave number k, in 1/sigma: {those_with('has_wave')} (6.5)")


def those_with(option):
    """The names of the measures that take an option."""
    return ", ".join(name for name, kind in MEASURES.items() if getattr(kind, option))


def options_of(asked):
    """For each measure that is asked for its own options."""
    options = {name: {} for name in asked.measures}
    for option, takes in (("most", "most"), ("width", "has_width"), ("wave", "has_wave")):
        for name, number in getattr(asked, option).items():
            takers = [it for it in asked.measures if getattr(MEASURES[it], takes) and name in ("", it)]
            if len(takers) != 1:
                raise Refused(f"--{option} {name}: {len(takers)} of the measures asked for take it, and it has to be one")
            options[takers[0]][option] = number
    if asked.series:
        for name in asked.measures:
            if not MEASURES[name].has_series:
                raise Refused(f"there is no series of {name}")
            options[name]["series"] = True
    return options


def runs_of(asked, reports):
    """The runs that are measured."""
    from .runs import Run

    for path, report in zip(asked.scenes, reports):
        scene = read_scene(path)
        yield Run(scene, report, True, None if asked.until is None else scene.ticks(asked.until))


def run_measure(asked):
    options, found = options_of(asked), []
    if asked.series and len(asked.scenes) > 1:
        raise Refused("a series is of one run")
    # That it is waited for is told before numpy is loaded, which may take a second.
    is_one = len(asked.scenes) == 1
    reports = [standard_input("a report")] if is_one else [Path(it).with_suffix(".report") for it in asked.scenes]
    from .measuring import together, watch
    from .sampling import BLOCKS, sampling

    kinds = {name: MEASURES[name].load() for name in asked.measures}
    for run in runs_of(asked, reports):
        part = sampling(run.scene, asked.start, asked.margin, asked.blocks if asked.series else BLOCKS)
        found.append({name: kind(part, **options[name]) for name, kind in kinds.items()})
        watch(run, list(found[-1].values()))
    tables = {name: together([it[name] for it in found]) for name in kinds}
    write_tables(tables, asked.output)


def write_tables(tables, folder):
    """Writes tables into files of a folder, or one after the other with an empty line between."""
    for place, (name, table) in enumerate(tables.items()):
        table.notes.insert(0, f"measure {name}")
        if folder is None:
            sys.stdout.write("\n" if place else "")
            table.write(sys.stdout)
        else:
            os.makedirs(folder, exist_ok=True)
            with open(Path(folder, f"{name}.csv"), "w", encoding="utf-8") as file:
                table.write(file)


def add_plot(commands):
    words = add_command(commands, "plot", run_plot, "draws tables, with errors, and theory where a table has it",
                        "Tables of one kind share a panel; those of one row each, as of several runs, are one curve over phi.")
    words.add_argument("tables", nargs="*", metavar="TABLE", help="files that measure or equation wrote (standard input)")
    words.add_argument("--panels", metavar="PANEL,..", help="which are drawn, by the names of their columns, as g,Z (all)")
    words.add_argument("--log", choices=["x", "y", "xy"], default="", help="which axes are logarithmic (both of C)")
    words.add_argument("--x", type=bounds, metavar="FROM:TO", help="what part of the x axis is shown")
    words.add_argument("--y", type=bounds_of, action="append", default=[], metavar="[PANEL=]FROM:TO",
                       help="of the y axes, or of a panel named by its column, as Z=3:5")
    add_figure(words, "ends in .svg, .png or .pdf")


def add_figure(words, formats):
    words.add_argument("-o", "--output", required=True, metavar="FILE", help=formats)
    words.add_argument("--dpi", type=whole(10, 2_400), help="dots per inch, of .png and movies (150, of a movie 90)")


def run_plot(asked):
    from .figures import DPI, require_format
    from .plotting import plot, read_tables

    require_format(asked.output)
    tables = [] if asked.tables else list(read_tables(standard_input("a table"), "standard input"))
    for path, name in zip(asked.tables, names_of(asked.tables)):
        with open(path, encoding="utf-8") as file:
            tables += read_tables(file, name)
    if not tables:
        raise Refused("there is no table to draw")
    ranges = {("", "x"): asked.x} if asked.x else {}
    ranges |= {(panel, "y"): value for panel, value in asked.y}
    if any(name in asked.log and low <= 0 for (_, name), (low, _) in ranges.items()):
        raise Refused("a logarithmic axis begins above 0")
    plot(tables, asked.output, asked.log, ranges, asked.dpi or DPI, asked.panels and asked.panels.split(","))


def names_of(paths):
    """How tables of these files are called: without folders, if that tells them apart."""
    stems = [Path(it).stem for it in paths]
    return stems if len(set(stems)) == len(stems) else [str(Path(it).with_suffix("")) for it in paths]


def add_draw(commands):
    words = add_command(commands, "draw", run_draw, "draws a frame, or all of them as a movie")
    add_report(words)
    what = words.add_mutually_exclusive_group()
    what.add_argument("--tick", type=whole(0, MOST_TICK), help="the first frame from this tick on (the last one)")
    what.add_argument("--movie", action="store_true", help="all frames, as a page for a browser or a GIF")
    words.add_argument("--colour", choices=["speed", "psi6", "direction", "neighbours"], default="speed",
                       help="psi6: its size; direction: that of psi6; beyond walls there are mirror images (%(default)s)")
    words.add_argument("--window", type=window, metavar="X:X,Y:Y", help="the part of the box that is shown, in sigma")
    words.add_argument("--fps", type=whole(1, 120), help="frames of a movie in a second (12)")
    add_figure(words, "ends in .svg, .png or .pdf; a movie in .html or .gif")


def run_draw(asked):
    report = standard_input("a report")
    from .drawing import FRAMES_BY_SECOND, MOVIE_DPI, Window, draw, movie
    from .figures import DPI, FORMATS, MOVIE_FORMATS, require_format
    from .runs import Run

    require_format(asked.output, MOVIE_FORMATS if asked.movie else FORMATS)
    if asked.fps and not asked.movie:
        raise Refused("--fps is of a movie, and --movie isn't there")
    part = asked.window and Window(*asked.window)
    run = Run(read_scene(asked.scene), report, shows_progress=True)
    if asked.movie:
        movie(run, asked.colour, asked.output, part, asked.dpi or MOVIE_DPI, asked.fps or FRAMES_BY_SECOND)
    else:
        draw(run, asked.colour, asked.output, asked.tick, part, asked.dpi or DPI)


def add_convert(commands):
    words = add_command(commands, "convert", run_convert, "writes frames or collisions for other programs",
                        "xyz: frames as extended XYZ; ase: as a trajectory of ASE; gsd: as HOOMD's, for freud; dump: as LAMMPS's"
                        " text, in sigma and v all; csv: collisions.")
    words.add_argument("format", choices=["xyz", "csv", "ase", "gsd", "dump"])
    add_report(words)
    words.add_argument("-o", "--output", required=True, metavar="FILE")


def run_convert(asked):
    report = standard_input("a report")
    from .converting import FORMATS
    from .runs import Run

    FORMATS[asked.format](Run(read_scene(asked.scene), report, shows_progress=True), asked.output)


def add_check(commands):
    words = add_command(commands, "check", run_check, "checks a report by momentum, energy and the virial theorem",
                        "These laws are proved of each run; docs/PHYSICS.md says them.")
    add_report(words)


def run_check(asked):
    from .conservation import check
    from .reports import read_report

    print(check(read_scene(asked.scene), read_report(standard_input("a report"))))


def add_equation(commands):
    words = add_command(commands, "equation", run_equation, "runs fluids and writes the pressure of each beside equations of state")
    phi = words.add_mutually_exclusive_group()
    phi.add_argument(
        "--phi", type=fractions, default=[0.2, 0.35, 0.5, 0.6], metavar="PHI,..", help="packing fractions (0.2,0.35,0.5,0.6)"
    )
    phi.add_argument("--phi-inside", type=fractions, metavar="PHI,..", help="those away from the walls, to 0.003 or so")
    words.add_argument("--disks", type=whole(1, MOST_DISKS), default=2000, help="(%(default)s)")
    words.add_argument("--time", type=positive, default=100.0, help=f"of each run; {TIMES} (%(default)s)")
    words.add_argument("--every", type=positive, help="has states written, and Z found by g at contact too: the time between two")
    add_layer(words)
    words.add_argument("--seed", type=whole(0, MOST_TICK), default=1, help="(%(default)s)")
    words.add_argument("--seeds", type=whole(1, 10_000), default=1,
                       help="runs of each packing fraction, that differ by their seeds: errors are by the spread (%(default)s)")
    words.add_argument("--program", help="the program that runs them (that which is built here, or the variable HARD_DISKS)")


def run_equation(asked):
    from .equation import Series, equation_of_state
    from .program import find_program

    series = Series(asked.disks, asked.time, asked.seed, asked.seeds, asked.every, asked.margin, asked.phi_inside is not None)
    for place, table in enumerate(equation_of_state(asked.phi_inside or asked.phi, series, find_program(asked.program))):
        if place:
            table.write_notes(sys.stdout)
            table.write_rows(sys.stdout)
        else:
            table.write(sys.stdout)
        sys.stdout.flush()


def add_compare(commands):
    words = add_command(commands, "compare", run_compare, "compares another code's events with the exact run, in windows of time",
                        "Each state of the other code begins a window. The status is 1 if disks part without a tie.")
    words.add_argument("events", metavar="EVENTS",
                       help="its events: lines t,first,second with disks from 0 on; second is -1 to -4 at the left, right, lower and"
                            " upper wall")
    words.add_argument("states", metavar="STATES", help="its states: lines t,x,y,vx,vy,diameter, for each t one for each disk")
    words.add_argument("--width", type=positive, required=True, help="of the box, which begins at (0, 0), in its units")
    words.add_argument("--height", type=positive, required=True)
    words.add_argument("--program", help="the program that is exact (that which is built here, or the variable HARD_DISKS)")


def run_compare(asked):
    from .comparing import compare, read_numbers
    from .program import find_program

    events, states = read_numbers(asked.events, "t,first,second"), read_numbers(asked.states, "t,x,y,vx,vy,diameter")
    found = compare(events, states, asked.width, asked.height, find_program(asked.program))
    found.table().write(sys.stdout)
    if found.unexplained:
        sys.stdout.flush()
        sys.exit(1)


def main(words=None):
    """Runs a command; what can't be done is said in one line, with status 2."""
    asked = parser().parse_args(words)
    if sys.stdout is None:
        refuse("standard output is closed")
    try:
        asked.call(asked)
        sys.stdout.flush()
    except BrokenPipeError:
        # Whoever reads wants no more.
        drop_output()
    except KeyboardInterrupt:
        sys.exit(130)
    except ModuleNotFoundError as why:
        refuse(f"there is no Python module {why.name} here; tools/setup installs what the commands stand on")
    except (Refused, OSError, UnicodeError, MemoryError) as why:
        drop_output()
        refuse(str(why) or type(why).__name__)


def drop_output():
    """Has nothing left that would be flushed at the end, and might fail again."""
    with contextlib.suppress(OSError, ValueError, AttributeError), open(os.devnull, "wb") as nothing:
        os.dup2(nothing.fileno(), sys.stdout.fileno())


def refuse(why):
    say(why)
    sys.exit(2)

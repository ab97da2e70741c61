"""Draws the tables that commands write: what is measured with its errors, and theory where a table has it.

Each column that is drawn belongs to a panel, by what it is and by the axis that it stands over; columns of several tables
that are of one kind share a panel."""
import warnings
from dataclasses import dataclass
from itertools import cycle
from typing import Iterator, TextIO

import numpy as np

from .columns import column
from .figures import COLOURS, DPI, WIDTH, new_figure, save
from .scenes import Refused

# The axes, in the order in which a table's is looked for, with their labels.
AXES = {
    "r": "r / σ", "k": "k σ", "time": "time / (σ/v)", "speed": "speed / v", "distance": "distance from the walls / σ",
    "phi": "φ inside", "phi_local": "φ of a square", "x": "free time, free path by their means; b / σ; speed / v",
}
# Equations of state beside which Z is looked at, the best first.
EQUATIONS = ("reference", "virial", "mixture", "Henderson")
# From so many rows on a column is a line with a band for its errors, not points with bars.
MANY = 40
GREYS = ["#333333", "#888888"]
# Greater numbers can't be drawn.
MOST_NUMBER = 1e100
PANEL_HEIGHT, MOST_CURVES = 2.9, 60


@dataclass
class Columns:
    """A table as it was written: `name` says whose it is, `values` has the numbers of each column."""

    name: str
    values: dict[str, np.ndarray]

    def axis(self) -> str | None:
        """The column that the others stand over."""
        return next((name for name in AXES if name in self.values), None)

    def drawn(self) -> list[str]:
        """The columns that are drawn over the axis."""
        return [it for it in self.values if it != self.axis() and column(it).is_drawn]

    def error(self, name: str) -> np.ndarray | None:
        """The errors of a column: over φ those at this φ, where there are some."""
        errors = [it for it in map(column, self.values) if it.error_of == name]
        errors.sort(key=lambda it: it.is_given_phi, reverse=self.axis() == "phi")
        return self.values[errors[0].name] if errors else None


@dataclass
class Curve:
    """A column in a panel: whose it is, and what it is beside the panel's own column."""

    table: str
    variant: str
    x: np.ndarray
    y: np.ndarray
    x_error: np.ndarray | None
    y_error: np.ndarray | None
    is_theory: bool


def read_tables(stream: TextIO, name: str) -> Iterator[Columns]:
    """The tables of a stream: notes, a line of names, and rows; an empty line ends a table. What is no number is unknown."""
    rows: list[list[str]] = []
    for line in [*stream, "\n"]:
        if line.strip() and not line.startswith("#"):
            rows.append(line.rstrip("\n").split(","))
        elif not line.strip() and rows:
            yield columns_of(rows, name)
            rows = []


def columns_of(rows: list[list[str]], name: str) -> Columns:
    names, *values = rows
    if not values or any(len(row) != len(names) for row in values):
        raise Refused(f"{name}: a table has no rows, or rows of other lengths than its first line")
    numbers = np.array([[number(it) for it in row] for row in values])
    return Columns(name, dict(zip(names, numbers.T)))


def number(text: str) -> float:
    try:
        value = float(text)
    except ValueError:
        return np.nan
    return value if abs(value) < MOST_NUMBER else np.nan


def joined(tables: list[Columns]) -> list[Columns]:
    """Tables of one row each that have the same columns, as those of runs at several φ, are one table together."""
    alike: dict[tuple[str, ...], list[Columns]] = {}
    for it in tables:
        if all(len(values) == 1 for values in it.values.values()):
            alike.setdefault(tuple(it.values), []).append(it)
    for names, group in alike.items():
        if len(group) > 1:
            rows = np.array([[it.values[name][0] for name in names] for it in group])
            rows = rows[np.argsort(rows[:, names.index(group[0].axis() or names[0])])]
            tables = [it for it in tables if it not in group] + [Columns("measured", dict(zip(names, rows.T)))]
    return tables


def curves_by_panel(tables: list[Columns]) -> dict[tuple[str, str], list[Curve]]:
    """The curves of each panel, which is an axis and a kind of column."""
    found: dict[tuple[str, str], list[Curve]] = {}
    for table in tables:
        axis = table.axis()
        if axis is None:
            raise Refused(f"{table.name}: the table has none of the columns {', '.join(AXES)} to be drawn over")
        for it in map(column, table.drawn()):
            x, y = table.values[axis], table.values[it.name]
            curve = Curve(table.name, it.variant, x, y, table.error(axis), table.error(it.name), it.is_theory)
            found.setdefault((axis, it.panel or it.name), []).append(curve)
        if axis == "phi" and (theory := next((it for it in EQUATIONS if f"Z_{it}" in table.values), None)):
            found.setdefault((axis, f"Z by {theory}"), []).extend(deviations(table, theory))
    if not found:
        raise Refused("the tables have nothing to draw but axes")
    if max(map(len, found.values())) > MOST_CURVES:
        raise Refused(f"more than {MOST_CURVES} curves in one panel")
    return found


def draw_curve(axes, curve: Curve, colour: str, label: str) -> None:
    if curve.is_theory:
        marker = "x" if len(curve.x) == 1 else ""
        axes.plot(*smooth(curve), color=colour, linestyle="--", marker=marker, linewidth=1, label=label, zorder=3)
    elif len(curve.x) >= MANY:
        axes.plot(curve.x, curve.y, color=colour, linewidth=1.2, label=label)
        if curve.y_error is not None:
            low, high = curve.y - curve.y_error, curve.y + curve.y_error
            axes.fill_between(curve.x, low, high, color=colour, alpha=0.25, linewidth=0)
    else:
        # A thin line leads the eye where points have no errors, as those of a series.
        line = {"linestyle": "-" if curve.y_error is None else "none", "linewidth": 0.6, "elinewidth": 1}
        axes.errorbar(
            curve.x, curve.y, known(curve.y_error), known(curve.x_error), color=colour, marker="o", markersize=3.5, capsize=2,
            label=label, **line,
        )


def deviations(table: Columns, theory: str) -> Iterator[Curve]:
    """How far each Z is from that of an equation, in percent."""
    phi, wanted = table.values["phi"], table.values[f"Z_{theory}"]
    for it in map(column, table.drawn()):
        if "Z" in (it.name, it.panel) and not it.is_theory:
            errors = table.error(it.name)
            share = 100 * (table.values[it.name] / wanted - 1)
            yield Curve(table.name, it.variant, phi, share, None, None if errors is None else 100 * errors / wanted, False)


def smooth(curve: Curve) -> tuple[np.ndarray, np.ndarray]:
    """A curve of theory with points between those that the table has, where it has few."""
    is_known = np.isfinite(curve.y)
    x, places = np.unique(curve.x[is_known], return_index=True)
    y = curve.y[is_known][places]
    if not 3 <= len(x) < MANY or not (y > 0).all():
        return x, y
    from scipy.interpolate import CubicSpline

    fine = np.linspace(x[0], x[-1], 10 * MANY)
    return fine, np.exp(CubicSpline(x, np.log(y))(fine))


def known(errors: np.ndarray | None) -> np.ndarray | None:
    """Errors to draw; one that is unknown is none."""
    return None if errors is None else np.nan_to_num(errors)


def plot(
    tables: list[Columns], path, logarithmic: str = "", ranges: dict[tuple[str, str], tuple[float, float]] | None = None,
    dpi: int = DPI, wanted: list[str] | None = None,
) -> None:
    """A figure of tables, a panel below the other, or of the panels that are wanted; `logarithmic` names axes, of x and y,
    and `ranges` bounds them: of a panel that is named, or of all."""
    panels = curves_by_panel(joined(tables))
    if wanted is not None:
        if missing := set(wanted) - {name for _, name in panels}:
            raise Refused(f"no panel {', '.join(sorted(missing))}: there are {', '.join(name for _, name in panels)}")
        panels = {key: curves for key, curves in panels.items() if key[1] in wanted}
    figure = new_figure((WIDTH, PANEL_HEIGHT * len(panels) + 0.3))
    all_axes = figure.subplots(len(panels), squeeze=False)
    # matplotlib warns of each point that a logarithmic axis leaves out.
    with warnings.catch_warnings():
        warnings.simplefilter("ignore", UserWarning)
        for axes, ((axis, panel), curves) in zip(all_axes[:, 0], panels.items()):
            draw_panel(axes, panel, curves)
            label = f"Z less that {panel[2:]}, in %" if panel.startswith("Z by ") else column(panel).label or panel
            axes.set(xlabel=AXES[axis], ylabel=label)
            for name in logarithmic or column(panel).logarithmic:
                axes.set(**{f"{name}scale": "log"})
            for (of, name), bounds in (ranges or {}).items():
                if of in ("", panel):
                    axes.set(**{f"{name}lim": bounds})
        save(figure, path, dpi)


def without_twins(curves: list[Curve]) -> list[Curve]:
    """Of theory that several tables have only the first."""
    found: list[Curve] = []
    for curve in curves:
        if not any(curve.is_theory and it.variant == curve.variant and np.array_equal(it.y, curve.y) for it in found):
            found.append(curve)
    return found


def label_of(curve: Curve, curves: list[Curve]) -> str:
    """What the legend says: whose it is only if several tables share the panel."""
    has_several = len({it.table for it in curves}) > 1
    return ", ".join(filter(None, [curve.table if has_several else "", curve.variant])) or "measured"


def draw_panel(axes, panel: str, curves: list[Curve]) -> None:
    """Draws what is measured in colours, and theory in greys."""
    colours, greys = cycle(COLOURS), cycle(GREYS)
    level = 0 if panel.startswith("Z by ") else column(panel).level
    if level is not None:
        axes.axhline(level, color="#bbbbbb", linewidth=0.8, zorder=0)
    for curve in without_twins(curves):
        draw_curve(axes, curve, next(greys if curve.is_theory else colours), label_of(curve, curves))
    if len(curves) > 1:
        axes.legend(fontsize=8)
    axes.tick_params(direction="in", top=True, right=True, which="both")

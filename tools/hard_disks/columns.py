"""What the columns of tables are: which is whose error, which is theory, and how they are drawn.

A table has the names of its columns alone, since it is written as text and read again: `column` says what a name stands
for."""
from dataclasses import dataclass


@dataclass(frozen=True)
class Column:
    """A column. It is drawn in a panel of its own, which has its label, or in that of another column."""

    name: str
    label: str = ""  # its name if there is none
    panel: str = ""  # the column whose panel it shares
    variant: str = ""  # how it is called there
    error_of: str = ""  # the column whose error it is
    is_given_phi: bool = False  # whether that is what the error would be if the packing fraction were known
    is_theory: bool = False
    is_drawn: bool = True
    level: float | None = None  # what its panel has to go by, as that of an ideal gas
    logarithmic: str = ""  # which axes of its panel are, unless others are asked for


# `order` and `flight` are panels alone.
COLUMNS = {
    it.name: it
    for it in (
        Column("g", "g(r)", level=1),
        Column("g6", "g6(r)"),
        Column("g6_relative", panel="g6", variant="divided by that at 0"),
        Column("S", "S(k)", level=1),
        Column("C", "C(t)", level=0, logarithmic="xy"),
        Column("D", "D(t) / σ v"),
        Column("msd", "mean squared displacement / σ²"),
        Column("viscosity", "η(t) σ / v"),
        Column("Fs", "Fs(k, t)"),
        Column("F", "F(k, t)"),
        Column("alpha2", "α2(t)"),
        Column("Z", "Z = P A / (N T)"),
        Column("P", "P σ² / v²"),
        Column("rate", "collisions of a disk in σ/v"),
        Column("free_path", "free path / σ"),
        Column("phi", "φ"),
        Column("T", "T / v²"),
        Column("psi6", "|ψ6|"),
        Column("order", "bond order"),
        Column("local", panel="order", variant="mean |ψ6|"),
        Column("whole", panel="order", variant="|mean ψ6|"),
        Column("six_neighbours", panel="order", variant="share with six neighbours"),
        Column("density", "density of speeds"),
        Column("Maxwell", panel="density", variant="Maxwell", is_theory=True),
        Column("shape", "⟨v⁴⟩ / ⟨v²⟩²", level=2),
        Column("H", "Boltzmann's H"),
        Column("share", "density of φ"),
        Column("flight", "density"),
        Column("time_density", panel="flight", variant="free time"),
        Column("path_density", panel="flight", variant="free path"),
        Column("impact_density", panel="flight", variant="impact parameter"),
        Column("speed_rate", "collisions in σ/v, by speed"),
        Column("speed_rate_Enskog", panel="speed_rate", variant="Enskog", is_theory=True),
        Column("late_median", "|Δt| / (σ/v), median", logarithmic="y"),
        Column("late_most", "|Δt| / (σ/v), greatest", logarithmic="y"),
        *(Column(name, is_drawn=False) for name in ("asked_for", "collisions", "runs", "disks", "events")),
    )
}
# What is theory of a column, as Z_virial.
THEORIES = ("Henderson", "virial", "mixture", "reference", "Enskog", "tail", "quarter_power", "Gauss")
ERROR, GIVEN_PHI = "_error", "_error_given_phi"


def column(name: str) -> Column:
    """What a name stands for: an error, the share of a size, a variant of another column, or what nothing is known of."""
    if name in COLUMNS:
        return COLUMNS[name]
    for ending in (ERROR, GIVEN_PHI):
        if name.endswith(ending):
            return Column(name, error_of=name.removesuffix(ending), is_given_phi=ending == GIVEN_PHI, is_drawn=False)
    own, _, variant = name.partition("_")
    if own == "share":
        return Column(name, is_drawn=False)
    if own in COLUMNS:
        return Column(name, panel=own, variant=variant, is_theory=variant in THEORIES)
    return Column(name)

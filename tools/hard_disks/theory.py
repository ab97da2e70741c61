"""Equations of state of a fluid of hard disks, by the packing fraction φ, and up to where each of them holds.

From memory of the publications, not looked up again:

D. Henderson, Molecular Physics 30, 971 (1975), and with a correction 34, 301 (1977);
N. Clisby and B. M. McCoy, Journal of Statistical Physics 122, 15 (2006): the virial coefficients up to the tenth;
A. Santos, S. B. Yuste and M. López de Haro, Molecular Physics 96, 1 (1999): disks of several sizes.

Simulated here: `SIMULATED`, by tools/reference/periodic.cpp."""
import math
from dataclasses import dataclass
from typing import Callable, NamedTuple

import numpy as np
from numpy.polynomial import Polynomial

# B_n / B_2^(n - 1) for n from 1 on.
REDUCED_VIRIAL = (1, 1, 0.7820044, 0.5322318, 0.3335560, 0.1988425, 0.1148728, 0.0649930, 0.0362193, 0.0199537)
# The same by powers of φ, since B_2 φ / (π σ² / 4) is 2 φ.
VIRIAL = Polynomial([b * 2**n for n, b in enumerate(REDUCED_VIRIAL)])
# (1 - φ)² Z, whose coefficients fall quickly.
SMOOTH = (VIRIAL * Polynomial([1, -2, 1])).truncate(len(REDUCED_VIRIAL))


def henderson(phi: float) -> float:
    """Z = P A / (N T) by Henderson's equation with its correction of 1977."""
    return (1 + phi**2 / 8) / (1 - phi) ** 2 - 0.043 * phi**4 / (1 - phi) ** 3


def virial(phi: float) -> float:
    """Z by ten virial coefficients, as (1 - φ)⁻² times a polynomial."""
    return SMOOTH(phi) / (1 - phi) ** 2


class Simulated(NamedTuple):
    """Z of a fluid in a periodic box by so many collisions of two disks, with its standard error by blocks."""

    phi: float
    disks: int
    collisions: float
    factor: float
    error: float


# By tools/reference/periodic.cpp, which is no part of the program.
SIMULATED = (
    Simulated(0.5, 5_016, 5.3e6, 4.1081, 0.0017),
    Simulated(0.6, 5_016, 18.5e6, 6.4568, 0.0017),
    Simulated(0.625, 5_016, 21.6e6, 7.3470, 0.0016),
    Simulated(0.648, 5_016, 41.4e6, 8.3168, 0.0015),
    Simulated(0.648, 10_044, 41.5e6, 8.3167, 0.0020),
    Simulated(0.67, 5_016, 71.0e6, 9.3627, 0.0023),
    Simulated(0.67, 10_044, 71.1e6, 9.3644, 0.0023),
    Simulated(0.68, 5_016, 12.0e6, 9.826, 0.006),
    Simulated(0.69, 5_016, 187.6e6, 10.2031, 0.0045),
    Simulated(0.69, 10_044, 104.3e6, 10.2042, 0.0043),
)


def reference(phi: float) -> float:
    """Z by the virial series less what it lacks near freezing, which is fitted to `SIMULATED`, and met to 0.05 %."""
    return virial(phi) - 0.0366 * math.exp(68.5 * (phi - 0.65))


@dataclass(frozen=True)
class Equation:
    """An equation of state, and the greatest φ at which it is right to 0.2 % of Z; beyond, it isn't a number."""

    name: str
    factor: Callable[[float], float]
    most: float

    def __call__(self, phi: float) -> float:
        return self.factor(phi) if phi <= self.most else math.nan


REFERENCE = Equation("reference", reference, 0.69)
EQUATIONS = (Equation("Henderson", henderson, 0.65), Equation("virial", virial, 0.625), REFERENCE)


def cautions(phi: float) -> list[str]:
    """What has to be said above a table that has values of these equations."""
    if not phi > min(it.most for it in EQUATIONS):
        return []
    bounds = ", ".join(f"{it.most:g} ({it.name})" for it in EQUATIONS)
    return [f"CAUTION: near freezing equations of state fail; they are unknown above a phi of {bounds}"]


def mixture(phi: float, sizes, weights=None) -> float:
    """Z where disks have these diameters, each with a weight, by that of one size: exact up to the second virial
    coefficient."""
    weights = [1] * len(sizes) if weights is None else weights
    first, second = (sum(weight * size**power for size, weight in zip(sizes, weights)) for power in (1, 2))
    if not second > 0:
        return math.nan
    return mixture_of(phi, first / sum(weights), second / sum(weights)) if phi <= REFERENCE.most else math.nan


def mixture_of(phi: float, mean: float, square: float) -> float:
    """The same by the mean diameter and the mean of its square; any φ will do."""
    share = mean**2 / square
    return (1 - share) / (1 - phi) + share * reference(phi)


def contact(factor: float, phi: float) -> float:
    """g(r) at contact where Z is this factor: Z = 1 + 2 φ g."""
    return (factor - 1) / (2 * phi)


def diffusion(phi: float) -> float:
    """D in σ v by Enskog's theory in its first approximation, 1 / (2 √π ρ σ² g) with g of the reference; v² = T is 1, so it is
    also the time in σ / v in which C(t) falls."""
    return math.sqrt(math.pi) / (8 * phi * contact(REFERENCE(phi), phi))


def viscosity(phi: float) -> float:
    """The shear viscosity η in v / σ of disks of mass 1, by Enskog's theory (Gass 1971, from memory)."""
    excess = REFERENCE(phi) - 1
    return 1.022 / (2 * math.sqrt(math.pi)) * 2 * phi * (1 / excess + 1 + 0.8729 * excess) if phi > 0 else math.nan


def velocity_tail(phi: float, times):
    """C(t) = 1 / (8 π ρ (D + ν) t), by which it falls at long times as mode coupling has it, with Enskog's D and ν = η / ρ;
    not a number at the time 0. In reduced units."""
    density = 4 * phi / math.pi
    spread = diffusion(phi) + viscosity(phi) / density
    return [1 / (8 * math.pi * density * spread * time) if time else math.nan for time in times]


def collision_rate(phi: float) -> float:
    """Collisions of a disk in the time σ / v, by Enskog's 2 √π ρ σ² g with g of the reference."""
    return 8 * phi * contact(REFERENCE(phi), phi) / math.sqrt(math.pi)


def rate_by_speed(phi: float, speeds: np.ndarray) -> np.ndarray:
    """Collisions in the time σ / v of a disk of each speed, in v: Enskog's mean over Maxwell's velocities of the others."""
    from scipy.special import ive

    x = np.asarray(speeds) ** 2 / 4
    return collision_rate(phi) / math.sqrt(2) * ((1 + 2 * x) * ive(0, x) + 2 * x * ive(1, x))


def whole_fraction(inside: float, count: int, sizes) -> float:
    """φ over the whole of a square box whose inside has another: pairs of diameters and shares. By scaled particle theory a
    wall of the length L takes φ (1 - φ) / (1 + φ) L σ / 2 of the area that disks cover, as they can't lie across it."""
    shares = sum(share for _, share in sizes)
    mean, square = (sum(share * size**power for size, share in sizes) / shares for power in (1, 2))
    # The root of φ solves a quadratic equation, as the box grows with 1 / φ and the walls with the root of that.
    half = inside * (1 - inside) / (1 + inside) * mean / math.sqrt(count * math.pi / 4 * square)
    return (math.sqrt(half**2 + inside) - half) ** 2

"""Pictures and movies of frames, by matplotlib."""
import math
from dataclasses import dataclass
from typing import Callable

import numpy as np

from .figures import DPI, WIDTH, new_figure, save
from .runs import Frame, Run
from .scenes import Refused, Scene
from .bonds import bond_order

# The colour of a disk with fewer than five, five, six, seven, and more than seven neighbours.
NEIGHBOUR_COLOURS = ["#542788", "#998ec3", "#d4d4d4", "#f1a340", "#b35806"]
# Disks so many greatest diameters from a wall have a mirror image behind it, when neighbours are found.
MIRRORED = 3
MOVIE_DPI, FRAMES_BY_SECOND = 90, 12


@dataclass
class Colouring:
    """How disks are coloured: the values of a frame's rows, their range, their map, and what the bar says."""

    values: Callable[[np.ndarray], np.ndarray]
    limits: tuple[float, float]
    map: object
    label: str
    ticks: dict[float, str] | None = None


def colouring(name: str, scene: Scene) -> Colouring:
    from matplotlib.colors import ListedColormap

    if name == "speed":
        return Colouring(lambda rows: np.hypot(rows[:, 2], rows[:, 3]) / scene.speed, (0, 3), "viridis", "speed / v")
    if name == "psi6":
        return Colouring(lambda rows: np.abs(order_in_box(scene, rows)[0]), (0, 1), "viridis", "|ψ6|")
    if name == "direction":
        return Colouring(
            lambda rows: np.angle(order_in_box(scene, rows)[0], deg=True) / 6, (-30, 30), cyclic_map(),
            "direction of ψ6, in degrees from the x axis",
        )
    return Colouring(
        lambda rows: np.clip(order_in_box(scene, rows)[1], 4, 8), (3.5, 8.5), ListedColormap(NEIGHBOUR_COLOURS), "neighbours",
        {4: "≤ 4", 5: "5", 6: "6", 7: "7", 8: "≥ 8"},
    )


def cyclic_map():
    """Colours that end as they begin, equally light all around: hexagons turned by 60 degrees are the same."""
    from matplotlib.colors import ListedColormap

    turns = np.linspace(0, 1, 256)[:, None] + [0, 1 / 3, 2 / 3]
    return ListedColormap(0.15 + 0.8 * np.sin(math.pi * turns) ** 2)


def order_in_box(scene: Scene, rows: np.ndarray) -> tuple[np.ndarray, np.ndarray]:
    """ψ6 of each disk and how many neighbours it has, with mirror images behind the walls among the neighbours: else the
    disks at the rim would have too few."""
    places, box = rows[:, :2], np.array([scene.width, scene.height])
    reach, whole = MIRRORED * scene.diameter, places
    for axis in (0, 1):
        mirror = np.where(np.arange(2) == axis, -1, 1)
        low, high = whole[whole[:, axis] < reach], whole[whole[:, axis] > box[axis] - reach]
        whole = np.vstack([whole, low * mirror, high * mirror + np.where(mirror < 0, 2 * box, 0)])
    order, counts = bond_order(whole)
    return order[: len(places)], counts[: len(places)]


@dataclass(frozen=True)
class Window:
    """The part of the box that is shown, in σ."""

    left: float
    right: float
    bottom: float
    top: float

    @classmethod
    def of_box(cls, scene: Scene) -> "Window":
        return cls(0, scene.width / scene.sigma, 0, scene.height / scene.sigma)

    def within(self, scene: Scene) -> "Window":
        """The same, if it has a part of the box."""
        box = self.of_box(scene)
        if not (box.left <= self.left < self.right <= box.right and box.bottom <= self.bottom < self.top <= box.top):
            raise Refused(f"the window isn't a part of the box, which is 0:{box.right:.6g},0:{box.top:.6g} sigma")
        return self

    def figure_size(self) -> tuple[float, float]:
        """In inches, with room for the bar and the labels."""
        share = (self.top - self.bottom) / (self.right - self.left)
        return WIDTH, min(max((WIDTH - 1.2) * share + 0.8, 2.0), 2 * WIDTH)


class Picture:
    """A figure of one frame, which can be given another."""

    def __init__(self, scene: Scene, colour: str, window: Window | None = None):
        from matplotlib.cm import ScalarMappable
        from matplotlib.colors import Normalize

        self.scene, self.colouring = scene, colouring(colour, scene)
        self.is_whole = window is None
        window = Window.of_box(scene) if window is None else window.within(scene)
        self.figure = new_figure(window.figure_size())
        axes = self.figure.subplots()
        shade = {"cmap": self.colouring.map, "norm": Normalize(*self.colouring.limits)}
        self.disks = [self.add_disks(axes, chosen, diameter, shade) for diameter, chosen in self.by_size()]
        axes.set(xlim=(window.left, window.right), ylim=(window.bottom, window.top), aspect="equal", xlabel="x / σ", ylabel="y / σ")
        bar = self.figure.colorbar(ScalarMappable(**shade), ax=axes, label=self.colouring.label, shrink=0.8)
        if ticks := self.colouring.ticks:
            bar.set_ticks(list(ticks), labels=list(ticks.values()))
        self.title = axes.set_title(" ")
        # Margins are found once, so that frames of a movie don't jump, and come quickly.
        self.figure.draw_without_rendering()
        self.figure.set_layout_engine("none")

    def by_size(self) -> list[tuple[float, np.ndarray]]:
        """Each diameter of the scene, in σ, with the numbers of the disks that have it."""
        sizes = np.array([row[4] for row in self.scene.disks])
        return [(size / self.scene.sigma, np.flatnonzero(sizes == size)) for size in np.unique(sizes)]

    def add_disks(self, axes, chosen, diameter, shade):
        """Disks of one size share one outline, which keeps a picture small. Those at a wall aren't cut off by a pixel."""
        from matplotlib.collections import PathCollection
        from matplotlib.path import Path
        from matplotlib.transforms import Affine2D, AffineDeltaTransform

        disks = PathCollection(
            [Path.unit_circle()], offsets=np.zeros((len(chosen), 2)), offset_transform=axes.transData, linewidths=0,
            clip_on=not self.is_whole, **shade,
        )
        disks.set_transform(Affine2D().scale(diameter / 2) + AffineDeltaTransform(axes.transData))
        axes.add_artist(disks)
        return chosen, disks

    def show(self, frame: Frame) -> None:
        """Has the figure show a frame."""
        if len(frame.rows) != len(self.scene.disks):
            raise Refused(f"a frame has {len(frame.rows)} disks, and the scene {len(self.scene.disks)}")
        places, values = self.scene.reduced(frame.rows)[:, :2], self.colouring.values(frame.rows)
        for chosen, disks in self.disks:
            disks.set_offsets(places[chosen])
            disks.set_array(values[chosen])
        self.title.set_text(f"N = {len(frame.rows)}, φ = {self.scene.phi:.3g}, t = {frame.tick / self.scene.time:.1f} σ/v")


def draw(run: Run, colour: str, path, tick: int | None = None, window: Window | None = None, dpi: int = DPI) -> None:
    """A picture of the first frame from a tick on, or of the last one; its format is that of the file's name."""
    chosen = None
    for frame in run.frames():
        if tick is None or frame.tick >= tick and chosen is None:
            chosen = frame
    if chosen is None:
        raise Refused(f"the report has no frame from tick {tick} on")
    picture = Picture(run.scene, colour, window)
    picture.show(chosen)
    save(picture.figure, path, dpi)


def movie(
    run: Run, colour: str, path, window: Window | None = None, dpi: int = MOVIE_DPI, frames_by_second: int = FRAMES_BY_SECOND
) -> None:
    """All frames: a page that plays in a browser, and needs nothing else, or a GIF."""
    import matplotlib
    from matplotlib.animation import HTMLWriter, PillowWriter

    picture = Picture(run.scene, colour, window)
    matplotlib.rcParams["animation.frame_format"] = "jpeg"
    if str(path).endswith(".gif"):
        writer = PillowWriter(fps=frames_by_second)
    else:
        # A page grows by its frames, and may have as many as the report.
        writer = HTMLWriter(fps=frames_by_second, embed_frames=True, embed_limit=math.inf, default_mode="loop")
    with writer.saving(picture.figure, path, dpi=dpi):
        for frame in run.frames():
            picture.show(frame)
            writer.grab_frame()

"""What all figures have in common, by matplotlib: the look, the formats, and that the same figure has the same bytes."""
from .scenes import Refused

FORMATS, MOVIE_FORMATS = (".svg", ".png", ".pdf"), (".html", ".gif")
WIDTH = 6.0  # of a figure, in inches
DPI = 150
# Colours that the colour-blind can tell apart (Okabe and Ito), the most distinct first.
COLOURS = ["#0072b2", "#d55e00", "#009e73", "#cc79a7", "#e69f00", "#56b4e9", "#000000"]


def new_figure(size: tuple[float, float]):
    """A figure of matplotlib in the look of this package, with a size in inches."""
    import matplotlib
    from matplotlib.figure import Figure

    matplotlib.rcParams.update({
        # The same figure has the same bytes, and its text stays text.
        "svg.hashsalt": "hard_disks", "svg.fonttype": "none", "pdf.fonttype": 42, "font.size": 10,
        "axes.prop_cycle": matplotlib.cycler(color=COLOURS), "axes.grid": False, "legend.frameon": False,
    })
    return Figure(figsize=size, layout="constrained")


def require_format(path: str, formats: tuple[str, ...] = FORMATS) -> None:
    if not str(path).lower().endswith(formats):
        raise Refused(f"{path} doesn't end in {' or '.join(formats)}")


def save(figure, path, dpi: int) -> None:
    """Writes a figure, in the format of the file's name; no format has the date in it."""
    metadata = {".svg": {"Date": None}, ".pdf": {"CreationDate": None}}
    figure.savefig(path, dpi=dpi, metadata=metadata.get(str(path).lower()[-4:]))

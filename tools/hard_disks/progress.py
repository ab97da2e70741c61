"""How far a report has been read, on a terminal where that takes longer than a second: by tqdm, or not at all."""
import sys


class Progress:
    """A bar up to a scene's last tick."""

    def __init__(self, end: int, is_wanted: bool):
        self.bar = None
        if is_wanted and sys.stderr.isatty():
            try:
                from tqdm import tqdm
            except ImportError:
                return
            self.bar = tqdm(total=end, delay=1, unit=" ticks", unit_scale=True, leave=False)

    def __enter__(self):
        return self

    def __exit__(self, *_):
        if self.bar is not None:
            self.bar.close()

    def show(self, tick: int) -> None:
        if self.bar is not None:
            self.bar.update(tick - self.bar.n)

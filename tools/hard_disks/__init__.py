"""From a packing fraction to a figure: scenes for the program hard_disks, and what its reports say.

    import hard_disks

    run = hard_disks.read("fluid.report", "fluid.toml")
    for tick, rows in run.frames():
        print(tick, run.scene.reduced(rows))

As a command: python3 -m hard_disks --help"""

__all__ = ["Refused", "Run", "Scene", "fit", "make", "read", "read_scene"]

# What each name's module is; they are loaded when they are asked for, as not all of them can do without numpy.
HOMES = {"Refused": "scenes", "Scene": "scenes", "read_scene": "scene_text", "Run": "runs", "read": "runs", "fit": "fitting", "make": "making"}


def __getattr__(name):
    if name not in HOMES:
        raise AttributeError(f"hard_disks has no {name}")
    from importlib import import_module

    return getattr(import_module(f".{HOMES[name]}", __name__), name)

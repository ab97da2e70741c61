"""Copies of the crates over which wrong bodies are checked, by the functions of the command rt that `rt ci` goes by."""

import importlib.machinery
import importlib.util
import os
import pathlib
import shutil
import sys


def load_rt():
    """The command rt as a module."""
    command = os.path.realpath(shutil.which("rt") or sys.exit("there is no command rt"))
    sys.dont_write_bytecode = True
    loader = importlib.machinery.SourceFileLoader("rt_command", command)
    module = importlib.util.module_from_spec(importlib.util.spec_from_loader("rt_command", loader))
    sys.modules["rt_command"] = module
    loader.exec_module(module)
    # A crate's stamp is asked for again and again, and nothing changes it here.
    stamps, taken = {}, module.rtlib.Crate.stamp
    module.rtlib.Crate.stamp = lambda crate: stamps.get(crate.folder) or stamps.setdefault(crate.folder, taken(crate))
    return module


class Rooms:
    """A copy of all crates as they are now, in a folder, with the libraries that were proved of the same sources."""

    def __init__(self, top, folder):
        self.rt, self.folder = load_rt(), folder
        # (its first call sets a signal's handler, which only the main thread may)
        self.rt.rtlib.guarded()
        self.rt.copy_crates(top, f"{folder}/copy")
        self.rt.Crate.allowed = self.rt.handles_of(f"{folder}/copy")
        self.rt.rtlib.Crate = self.rt.Crate
        self.own = {it.name: it for it in self.rt.rtlib.crates_below(top)}
        self.crates = {it.name: it for it in self.rt.rtlib.crates_below(f"{folder}/copy")}
        self.kept, self.sums = self.rt.Kept([*self.crates.values()]), {}

    def sum_of(self, name):
        """A sum of all that a verdict on a crate rests on, but its wrong bodies."""
        return self.rt.stamp_of(self.crates[name], self.sums)

    def path(self, name):
        return pathlib.Path(self.crates[name].folder)

    def take_libraries(self, names):
        """Has the copy take over the libraries below these crates, as `rt ci` proved them, or else as `rt check` did here; those
        of both don't go together. Returns the crates whose libraries are there."""
        wanted = {it.name for name in names for it in self.crates[name].below()}
        lowest_first = sorted((self.crates[it] for it in wanted), key=lambda it: len(it.below()))
        for take in (self.take_from_gate, self.take_from_checks):
            taken = set()
            for crate in lowest_first:
                shutil.rmtree(f"{crate.folder}/out", ignore_errors=True)
                if all(it.name in taken for it in crate.below()) and take(crate):
                    taken.add(crate.name)
            there = [name for name in names if all(it.name in taken for it in self.crates[name].below())]
            if len(there) == len(names):
                break
        return there

    def take_from_gate(self, crate):
        """Takes over a library as `rt ci` keeps it, by the sums of those below it."""
        is_there = self.kept.give(crate, False, self.kept.key(crate))
        if is_there:
            self.kept.is_built(crate)
        return is_there

    def take_from_checks(self, crate):
        """Takes over a library as `rt check` or `rt lib` built it in the repository itself."""
        own = self.own[crate.name]
        if own.stamp() != crate.stamp() or not own.is_built():
            return False
        shutil.copytree(os.path.dirname(own.rlib), os.path.dirname(crate.rlib), copy_function=self.rt.link_or_copy)
        return True

    def is_proved_by_gate(self, name):
        """Whether `rt ci` proved a crate as it is, over the libraries that the copy has taken over."""
        crate = self.crates[name]
        return bool(self.kept.at) and os.path.isdir(self.kept.place(crate, False, self.kept.key(crate)))

    def begin(self, name):
        """A folder of a crate's kept work: what checks kept in this repository or another copy, or an empty one."""
        start, room = self.rt.work_for(self.own[name]), f"{self.folder}/work/{name}"
        try:
            if start:
                self.rt.linked(start, room)
        except (OSError, shutil.Error):
            # (another command may write what this one copies)
            shutil.rmtree(room, ignore_errors=True)
        os.makedirs(room, exist_ok=True)
        return room

    def check(self, name, texts, work, more=()):
        """Checks a crate with these texts in place of its own, over kept work, and returns the status and the lines."""
        for _ in range(2):
            ran = self.rt.checked(self.crates[name], texts, ["--jobs", "1", *more], work)
            # One that was killed, most likely for memory, is begun once more.
            if ran.returncode >= 0:
                break
        return ran.returncode, ran.stdout.split("\n")

    def free_memory(self):
        return self.rt.free()

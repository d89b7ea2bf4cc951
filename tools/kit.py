"""The toolchain's rt as a module, and what it proved on this machine: for tools/release and tools/edits."""

import importlib.machinery
import importlib.util
import os
import shutil
import subprocess
import sys

PARTS = ("src", "specs", "proofs")


def said_by(*words):
    """What a command says, without the line feed at its end."""
    return subprocess.run(words, check=True, stdout=subprocess.PIPE, text=True).stdout.rstrip("\n")


def folder():
    """The folder of the kit at hand."""
    return os.path.dirname(said_by("rt", "doc"))


def load():
    """The kit's rt as a module."""
    loader = importlib.machinery.SourceFileLoader("rt_of_the_kit", f"{folder()}/bin/rt")
    module = importlib.util.module_from_spec(importlib.util.spec_from_loader(loader.name, loader))
    sys.modules[loader.name] = module
    loader.exec_module(module)
    return module


def files_of(top, crate):
    """The files that a crate is made of, each by its path below the top."""
    for part in PARTS:
        for at, _, names in os.walk(f"{top}/crates/{crate}/{part}"):
            yield from (os.path.relpath(f"{at}/{name}", top) for name in names)


class Proved:
    """What this machine has proved of a checkout's crates, to be given to a copy of them elsewhere.

    A kit from 13f on keeps what `rt ci` proved by the sums of all that it read. An older one leaves it in the checkout,
    where it counts as long as no source is newer.
    """

    def __init__(self, top, copy):
        self.top, self.copy, self.rt = top, copy, load()
        self.keeps = hasattr(self.rt, "Kept")
        self.rt.Crate.allowed = self.rt.handles_of(copy)
        self.given, self.kept = set(), None

    def crates(self, top):
        """The kit's crates of a checkout by name, lowest first."""
        found = self.rt.crates_of(top) if self.keeps else self.rt.rtlib.crates_below(top)
        return {it.name: it for it in sorted(found, key=lambda it: len(it.below()))}

    def below(self, crates, names):
        """The crates below those with these names, lowest first."""
        below = {it.name for name in names for it in crates[name].below()}
        return [it for it in crates.values() if it.name in below]

    def give_built(self, names):
        """Gives the copy what `rt check` built in the checkout of the crates below those with these names, if it built all."""
        wanted = self.below(self.crates(self.top), names)
        if not all(it.is_built() for it in wanted):
            return False
        for it in wanted:
            inside = os.path.relpath(os.path.dirname(it.rlib), self.top)
            shutil.copytree(f"{self.top}/{inside}", f"{self.copy}/{inside}", copy_function=link_or_copy)
        return True

    def give_proved(self, wanted):
        """Gives the copy what `rt ci` proved of some of its crates, lowest first. Returns the names of those that it hasn't."""
        if self.keeps and self.kept is None:
            self.kept = self.rt.Kept(wanted)
        for it in wanted:
            hold_stamp(it)
            if it.name in self.given or any(low.name not in self.given for low in it.below()):
                continue
            if (self.kept and self.kept.give(it, False, self.kept.key(it))) or self.give_left(it):
                self.given.add(it.name)
                self.stamp(it)
        return [it.name for it in wanted if it.name not in self.given]

    def stamp(self, crate):
        """Has rt take a library that was given for built."""
        if crate.is_program:
            return
        with open(f"{os.path.dirname(crate.rlib)}/stamp", "w", encoding="utf-8") as file:
            file.write(crate.stamp())
        if self.kept:
            self.kept.is_built(crate)

    def give_left(self, crate):
        """Gives the copy what the last run left of a crate in the checkout, if no source is newer."""
        left = f"crates/{crate.name}/out"
        made = crate.name if crate.is_program else f"rlib/{crate.name}.rlib/format"
        if not self.is_fresh(f"{self.top}/{left}/{made}", [it.name for it in (*crate.below(), crate)]):
            return False
        os.makedirs(f"{self.copy}/{left}", exist_ok=True)
        if crate.is_program:
            shutil.copy2(f"{self.top}/{left}/{made}", f"{self.copy}/{left}/{made}")
        else:
            shutil.copytree(f"{self.top}/{left}/rlib", f"{self.copy}/{left}/rlib")
        return True

    def is_fresh(self, made, crates):
        """Whether something that a run of rt made is newer than all that these crates are made of."""
        files = ["crates.txt", *(file for it in crates for file in files_of(self.top, it))]
        return os.path.exists(made) and all(os.path.getmtime(f"{self.top}/{it}") <= os.path.getmtime(made) for it in files)


def hold_stamp(crate):
    """Finds a crate's stamp once. It reads those of the crates below, so it is to be held for these first."""
    stamp = crate.stamp()
    crate.stamp = lambda: stamp


def link_or_copy(source, to):
    try:
        os.link(source, to)
    except OSError:
        shutil.copy2(source, to)

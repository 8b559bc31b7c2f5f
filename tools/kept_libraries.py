#!/usr/bin/env python3
"""Gives this tree the libraries that `rt ci` has proved and kept on this machine: tools/kept_libraries.py [CRATE ..]

So work on a crate begins at once in a fresh clone, beside a gate or after it: `rt check` takes what lies below as built. Each library is
taken whose files, and those of all below it, are as they were proved; of these crates and those below them, or of all. What isn't kept
is named: of what was changed `rt lib` makes the library, in its folder. No verdict rests on this: `rt ci` takes nothing from out/.
"""
import importlib.machinery
import importlib.util
import os
import shutil
import sys

TOP = os.path.dirname(os.path.dirname(os.path.realpath(__file__)))


def rt_itself():
    """Returns the module that rt is."""
    loader = importlib.machinery.SourceFileLoader("rt", os.path.realpath(shutil.which("rt")))
    module = importlib.util.module_from_spec(importlib.util.spec_from_loader("rt", loader))
    loader.exec_module(module)
    return module


class Libraries:
    """The crates of a tree, and what `rt ci` kept of them."""

    def __init__(self, top):
        self.rt = rt_itself()
        self.rt.Crate.allowed = self.rt.handles_of(top)
        self.crates = {it.name: it for it in self.rt.crates_of(top)}
        self.kept, self.given = self.rt.Kept([*self.crates.values()]), set()

    def lacking(self, name):
        """Gives the crate and those below it what was kept of them, and returns the first of which nothing was."""
        for crate in [*self.crates[name].below(), self.crates[name]]:
            if crate.name not in self.given:
                if not crate.is_built() and not self.give(crate):
                    return crate.name
                self.kept.is_built(crate)
                self.given.add(crate.name)
        return None

    def give(self, crate):
        """Gives one crate what was kept of it, and returns whether anything was."""
        at = f"{crate.folder}/out/rlib"
        # (rt would take a library that stands there for a damaged one of its own)
        shutil.rmtree(at, ignore_errors=True)
        if not self.kept.give(crate, False, self.kept.key(crate)):
            return False
        # (a static library is nothing that others stand on)
        if os.path.isdir(at):
            with open(f"{at}/stamp", "w", encoding="utf-8") as it:
                it.write(crate.stamp())
        return True


def main(*names):
    libraries = Libraries(TOP)
    unknown = [it for it in names if it not in libraries.crates]
    if unknown:
        sys.exit(f"crates.txt has no crate {unknown[0]}")
    wanted = [it for it in libraries.crates.values() if not it.is_program and not it.is_static]
    if names:
        asked = [libraries.crates[it] for it in names]
        wanted = [it for it in wanted if it in asked or any(it in crate.below() for crate in asked)]
    left = [it.name for it in wanted if libraries.lacking(it.name)]
    print(f"{len(libraries.given)} libraries stand as proved")
    if left:
        print(f"not kept, or changed: {' '.join(left)}")
    return 0


if __name__ == "__main__":
    sys.exit(main(*sys.argv[1:]))

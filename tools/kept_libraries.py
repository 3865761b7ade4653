#!/usr/bin/env python3
"""Links the libraries that `rt ci` proved and kept on this machine into clones of this repository, so that `rt check` there needn't build them again.

    kept_libraries.py [CLONE ..]   the top of each clone; without one, that of this script

A library is linked where the clone's crate and all below it are what was proved: `rt` names what it kept by a sum of all that it read. Run it again while a
`rt ci` goes on: it adds what was kept meanwhile. Prints, for each clone, which libraries were linked and which are lacking. It calls functions of `rt` itself, and so
fits the kit of this repository's `rt version`. No verdict rests on it: `rt ci` takes nothing from a clone's `out/`.
"""

import importlib.machinery
import importlib.util
import os
import shutil
import sys
from pathlib import Path

TOP = Path(__file__).resolve().parent.parent


def kit():
    """The program `rt` as a module."""
    path = os.path.realpath(shutil.which("rt") or "/opt/rattle/bin/rt")
    if not os.path.isfile(os.path.join(os.path.dirname(path), "rtlib.py")):
        path = "/opt/rattle/bin/rt"
    loader = importlib.machinery.SourceFileLoader("rt", path)
    module = importlib.util.module_from_spec(importlib.util.spec_from_loader("rt", loader))
    loader.exec_module(module)
    return module


def link(rt, top):
    """Links what was kept, lowest crates first; returns the crates that got a library, and those that have none."""
    os.chdir(top)
    rt.Crate.allowed = rt.handles_of(top)
    rt.rtlib.Crate = rt.Crate
    crates = sorted(rt.rtlib.crates_below(top), key=lambda crate: len(crate.below()))
    kept, linked, ready = rt.Kept(crates), [], set()
    for crate in crates:
        if crate.is_program or any(below.name not in ready for below in crate.below()):
            continue
        if not crate.is_built():
            key = kept.key(crate)
            if not os.path.isdir(kept.place(crate, False, key)):
                continue
            library = os.path.join(crate.folder, "out", "rlib")
            shutil.rmtree(library, ignore_errors=True)
            os.makedirs(library)
            if not kept.give(crate, False, key):
                continue
            Path(library, "stamp").write_text(crate.stamp(), encoding="utf-8")
            linked.append(crate.name)
        kept.is_built(crate)
        ready.add(crate.name)
    return linked, [crate.name for crate in crates if crate.name not in ready]


def main(words):
    rt = kit()
    for top in words or [TOP]:
        linked, lacking = link(rt, os.path.abspath(top))
        print(f"{top}: linked", *linked, "; lacking", *lacking)


if __name__ == "__main__":
    main(sys.argv[1:])

#!/usr/bin/env python3
"""Is the kit's `rt`, which sums the sources of each crate below once.

    rt_once.py WORD ..   as `rt WORD ..`

`rt` asks whether a library is built by a sum of all that it is made from, and sums a crate anew for each way on which the crates above lead down to it: of
this repository's crates those are some hundred thousand, which take minutes of a processor. Within a call here a sum is kept, but not that of the crate
which the call is for: it is taken again when the build has ended, so that a source that was changed meanwhile shows. `rt` itself does all else. Where the
kit isn't of this form, this is `rt` as it is.
"""

import importlib.machinery
import importlib.util
import os
import shutil
import sys


def is_known(path):
    """Whether it is a kit whose `rt` stands beside its `rtlib.py`."""
    return bool(path) and os.path.isfile(os.path.join(os.path.dirname(path), "rtlib.py"))


def loaded(path):
    loader = importlib.machinery.SourceFileLoader("rt", path)
    module = importlib.util.module_from_spec(importlib.util.spec_from_loader("rt", loader))
    loader.exec_module(module)
    return module


def keep(crate, name, is_kept):
    """Has a method of the class called once of each instance that keeps what it gives."""
    real, given = getattr(crate, name), {}

    def once(self):
        if not is_kept(self):
            return real(self)
        if id(self) not in given:
            # (with the instance, so that its number isn't another one's later)
            given[id(self)] = self, real(self)
        return given[id(self)][1]

    setattr(crate, name, once)


def main(words):
    path = os.path.realpath(shutil.which("rt") or "rt")
    if not is_known(path):
        os.execvp("rt", ["rt", *words])
    sys.dont_write_bytecode = True
    rt, here = loaded(path), os.path.realpath(os.getcwd())
    for crate in {rt.rtlib.Crate, getattr(rt, "Crate", rt.rtlib.Crate)}:
        if "stamp" in vars(crate):
            keep(crate, "stamp", lambda it: os.path.realpath(it.folder) != here)
        if "below" in vars(crate):
            keep(crate, "below", lambda _: True)
    return rt.main(words)


if __name__ == "__main__":
    sys.exit(main(sys.argv[1:]))

#!/usr/bin/env python3
"""Tries wrong bodies, which the prover must refuse: the edits of `must-fail/`, which `rt ci` tries too, and those of `more-edits/`, which it leaves out.

    more_edits.py [--gate | --beside] [--jobs N] [CRATE ..]

    --gate      only those of must-fail/
    --beside    only those of more-edits/
    --jobs N    N crates side by side; without it as many as there are processors, and 3 GB of memory for each
    CRATE ..    those of these crates; without a name, those of all crates

Prints a line for each edit, with the seconds that it took and what `rt must-fail` says of it, crate by crate, and a line for all. Ends with 1 where an
edit isn't refused or couldn't be tried. An edit takes some 15 to 60 seconds of a processor over what `rt check` kept of its crate on this machine; a
crate of which nothing is kept is proved first, with those below it. What an earlier call tried isn't tried again while nothing changed that it stands on.

It works on a copy of the repository in a temporary folder, where the edits that are wanted stand in `must-fail/`: the repository stays as it is.
"""

import argparse
import os
import re
import resource
import shutil
import subprocess
import sys
import tempfile
import threading
from concurrent.futures import ThreadPoolExecutor
from pathlib import Path

ROOT = Path(__file__).resolve().parent.parent
FOLDERS = ("must-fail", "more-edits")
# What a crate's tries take of memory, in bytes.
MEMORY = 3_000_000_000
# What `rt must-fail` says of an edit, of some in several lines.
TOLD = re.compile(r"^rt: must-fail (.*(?:\n(?!rt: ).*)*)", re.M)


class Watch(threading.Thread):
    """Counts the seconds that each edit of a crate takes: while `rt` tries one, a folder in its temporary files has the edit's number."""

    def __init__(self, room):
        super().__init__(daemon=True)
        self.room, self.seconds, self.ended = room, {}, threading.Event()

    def run(self):
        while not self.ended.wait(1):
            for tried in self.room.glob("rt-edits-*/*"):
                self.seconds[tried.name] = self.seconds.get(tried.name, 0) + 1


def edits_of(crate, folders):
    return sorted(edit for folder in folders for edit in (ROOT / "crates" / crate / folder).glob("*.edit"))


def copy_to(copy, edits):
    """Copies the repository and its libraries, with these edits, by crate, as those that `rt must-fail` tries."""
    # What checks kept in `out/incremental` is large, and `rt` itself takes it from where it is.
    shutil.copytree(ROOT, copy, symlinks=True, ignore=shutil.ignore_patterns(".git", "incremental", *FOLDERS))
    for crate, of_crate in edits.items():
        folder = copy / "crates" / crate / "must-fail"
        folder.mkdir()
        for edit in of_crate:
            shutil.copy(edit, folder)


def try_crate(copy, crate, edits):
    """Tries the edits of a crate of the copy, one after another, and prints what is said of each; how many are refused."""
    room = copy.parent / crate
    room.mkdir()
    watch = Watch(room)
    watch.start()
    here = {**os.environ, "TMPDIR": str(room), "RT_JOBS": "1"}
    done = subprocess.run(["rt", "must-fail", crate], cwd=copy, env=here, stdout=subprocess.PIPE, stderr=subprocess.STDOUT, errors="replace")
    watch.ended.set()
    told = TOLD.findall(done.stdout)
    # `rt` numbers and tells them by their names. Where something else fails, as a crate below, its last words tell what.
    numbers = {f"{crate}/{name}": str(number) for number, name in enumerate(sorted(edit.name for edit in edits))}
    lines = [f"{watch.seconds.get(numbers[text.partition(':')[0]], 0):4} s  {text.rstrip()}" for text in told]
    print("\n".join(lines or done.stdout.splitlines()[-20:]), flush=True)
    return sum(".edit: refused, " in text for text in told)


def jobs_at_once():
    memory = os.sysconf("SC_PAGE_SIZE") * os.sysconf("SC_PHYS_PAGES")
    return max(1, min(len(os.sched_getaffinity(0)), memory // MEMORY))


def words():
    parser = argparse.ArgumentParser(description="Tries wrong bodies, which the prover must refuse.")
    only = parser.add_mutually_exclusive_group()
    only.add_argument("--gate", action="store_const", dest="folders", const=FOLDERS[:1], default=FOLDERS, help="only those of must-fail/")
    only.add_argument("--beside", action="store_const", dest="folders", const=FOLDERS[1:], help="only those of more-edits/")
    parser.add_argument("--jobs", type=int, default=jobs_at_once(), help="crates side by side")
    parser.add_argument("crates", nargs="*", metavar="CRATE")
    return parser.parse_args()


def main():
    given = words()
    names = given.crates or [path.name for path in (ROOT / "crates").iterdir()]
    edits = {name: of_crate for name in names if (of_crate := edits_of(name, given.folders))}
    for name in given.crates:
        if name not in edits:
            sys.exit(f"more edits: {name} has none")
    # Those of most edits first, so that none is left alone at the end.
    order = sorted(edits, key=lambda name: -len(edits[name]))
    with tempfile.TemporaryDirectory(prefix="more-edits-") as room, ThreadPoolExecutor(max(1, given.jobs)) as pool:
        copy = Path(room) / "repository"
        copy_to(copy, edits)
        refused = sum(pool.map(lambda name: try_crate(copy, name, edits[name]), order))
    count = sum(map(len, edits.values()))
    used = resource.getrusage(resource.RUSAGE_CHILDREN)
    print(f"more edits: {count} tried, {refused} refused, in {(used.ru_utime + used.ru_stime) / 60:.1f} processor minutes")
    return 0 if refused == count else 1


if __name__ == "__main__":
    sys.exit(main())

#!/usr/bin/env python3
"""Prints how many jumps through tables `pace jumps` lists, on C programs with switches that two compilers build at four levels, and runs what `lower` makes.

    jumps.py [--pace PROGRAM] [--scale PROGRAM] [--compilers gcc,clang] [--keep FOLDER] [SOURCE ..]

Each SOURCE is a program in C that reads its input and writes bytes; without any, those of bench/tables are taken. gcc and clang build each at -O0, -O1, -O2 and
-Os, with jump tables. Each image is drafted and lowered, and both images are run on the same inputs. A row by compiler and level has how many images there are,
how many of their jumps are listed and open, how many targets are listed, and how many runs were compared. A run whose output or ending isn't the same is told, as
is an image that is refused, and the status is 1. What isn't built is told.
"""

import argparse
import collections
import glob
import os
import random
import re
import sys
import tempfile

from compilers import LEVELS, build, run
from runs import TOP

MACHINE = f"{TOP}/examples/fsm/machine.toml"


def inputs():
    """Inputs by a fixed seed: bytes of small numbers, of all numbers and of text, and each number below 128 by itself."""
    dice = random.Random(31)
    yield b""
    for most in (8, 12, 16, 128, 256):
        for length in (1, 7, 40, 64, 128):
            yield bytes(dice.randrange(most) for _ in range(length))
    for length in (5, 60, 200):
        yield bytes(dice.choice(b"ab 09.\"!#$%&x") for _ in range(length))
    yield bytes(range(128))


def run_image(scale, image, given, out):
    """The lines of a run that tell how it ended, and its output."""
    done = run(scale, "simulate", image, MACHINE, given, out)
    ended = re.search(r"^end .*$", done.stdout, re.M)
    with open(out, "rb") as file:
        return (ended[0] if ended else done.stdout + done.stderr), file.read()


class Rows:
    def __init__(self):
        self.rows, self.wrong = collections.defaultdict(collections.Counter), 0

    def tell(self, text):
        self.wrong += 1
        print(text, file=sys.stderr)

    def add(self, key, text, draft):
        numbers = {name: int(value) for name, value in re.findall(r"^(jumps|listed|open) (\d+)$", text, re.M)}
        row = self.rows[key]
        row.update(images=1, jumps=numbers["jumps"], listed=numbers["listed"], open=numbers["open"])
        with open(draft) as file:
            row["targets"] += sum(line.count("0x") for line in file if line.startswith("targets"))

    def compare(self, scale, name, key, image, lowered, room):
        for k, given in enumerate(inputs()):
            path = os.path.join(room, "input")
            with open(path, "wb") as file:
                file.write(given)
            if run_image(scale, image, path, os.path.join(room, "out")) != run_image(scale, lowered, path, os.path.join(room, "out")):
                self.tell(f"{name}: the run on input {k} differs")
            self.rows[key]["runs"] += 1

    def print(self):
        print("| compiler | level | images | jumps | listed | open | targets | runs |")
        print("|---|---|---|---|---|---|---|---|")
        for (compiler, level), row in [*self.rows.items(), (("both", "all"), sum(self.rows.values(), collections.Counter()))]:
            print(f"| {compiler} | {level} | {row['images']} | {row['jumps']} | {row['listed']} | {row['open']} | {row['targets']} | {row['runs']} |")


def measure(given, rows, room, compiler, level, source):
    key, name = (compiler, level), f"{os.path.basename(source)} by {compiler} {level}"
    image = os.path.join(room, f"{os.path.basename(source)}-{compiler}{level}.elf")
    if not build(compiler, level, source, image):
        print(f"{name}: not built", file=sys.stderr)
        return
    drafted = run(given.pace, "jumps", image, image + ".toml")
    if drafted.returncode:
        rows.tell(f"{name}: {drafted.stdout}{drafted.stderr}".rstrip())
        return
    rows.add(key, drafted.stdout, image + ".toml")
    lowered = run(given.scale, "lower", image, image + ".toml", image + ".low")
    if lowered.returncode:
        rows.tell(f"{name}: {lowered.stdout}{lowered.stderr}".rstrip())
        return
    rows.compare(given.scale, name, key, image, image + ".low", room)


def main():
    words = argparse.ArgumentParser(description=__doc__, formatter_class=argparse.RawDescriptionHelpFormatter)
    words.add_argument("--pace", default=f"{TOP}/pace")
    words.add_argument("--scale", default=f"{TOP}/scale")
    words.add_argument("--compilers", default="gcc,clang")
    words.add_argument("--keep")
    words.add_argument("sources", nargs="*", default=sorted(glob.glob(f"{TOP}/bench/tables/*.c")))
    given = words.parse_args()
    rows = Rows()
    with tempfile.TemporaryDirectory(prefix="scale-jumps-") as made:
        room = given.keep or made
        for compiler in given.compilers.split(","):
            for level in LEVELS:
                for source in given.sources:
                    measure(given, rows, room, compiler, level, source)
    rows.print()
    return 1 if rows.wrong else 0


if __name__ == "__main__":
    sys.exit(main())

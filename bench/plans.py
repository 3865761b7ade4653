#!/usr/bin/env python3
"""Draws the plans of all examples and of made programs by `pace draw plan`, and has Graphviz take each: `dot -Tsvg` has to end with status 0.

    plans.py [--programs N] [--pace PROGRAM] [--scale PROGRAM]   N made programs, 200 if none is given

It prints, for each example, how many blocks are drawn and how long `pace` and `dot` take, the same of some larger made programs, up to the most
blocks that are drawn and beyond, and the greatest times of the N and where they were. `dot` is also measured in seconds of the processor, which
other work on the machine changes less. A program that `hold` refuses is named, and isn't drawn. Where Graphviz isn't installed it says so.
"""

import argparse
import os
import resource
import shutil
import subprocess
import sys
import tempfile
import time

from runs import TOP

EXAMPLES = os.path.join(TOP, "examples")
# Seconds that `dot` may take.
LONGEST = 60
# Sizes of larger made programs: those of 1,500 have some 1,900 blocks of code, those of 2,000 some 2,500.
LARGE = [400, 800, 1500, 2000]


def examples():
    """The image, the machine file and the loop file of each example, as both compilers made them."""
    for name in sorted(os.listdir(EXAMPLES)):
        folder = os.path.join(EXAMPLES, name)
        for image, loops in [(name + ".elf", "loops.toml"), (name + "-clang.elf", "clang-loops.toml")]:
            files = [os.path.join(folder, image), os.path.join(folder, "machine.toml"), os.path.join(folder, loops)]
            if all(os.path.exists(file) for file in files):
                yield files


def made(scale, folder, number, size):
    """The same of a made program."""
    prefix = os.path.join(folder, "made")
    subprocess.run([scale, "make", str(number), str(size), prefix], check=True, capture_output=True)
    return [prefix + ".elf", prefix + ".machine", prefix + ".loops"]


def spent():
    """Seconds of the processor that the programs that have ended took."""
    usage = resource.getrusage(resource.RUSAGE_CHILDREN)
    return usage.ru_utime + usage.ru_stime


def timed(words):
    """Seconds, seconds of the processor, and what a program gave."""
    begin, before = time.perf_counter(), spent()
    done = subprocess.run(words, capture_output=True, timeout=LONGEST)
    return time.perf_counter() - begin, spent() - before, done


def draw(pace, folder, name, files):
    """The times of `pace` and of `dot` on a program, those of its processor for `dot`, and how many blocks are drawn; none where it is refused."""
    picture = os.path.join(folder, "plan.dot")
    took, _, done = timed([pace, "draw", "plan", *files, picture])
    if done.returncode != 0:
        print("%-24s %s" % (name, done.stdout.decode().strip()))
        return None
    drawn, cost, shown = timed(["dot", "-Tsvg", picture, "-o", os.path.join(folder, "plan.svg")])
    if shown.returncode != 0 or shown.stderr:
        print("%-24s dot: %s" % (name, shown.stderr.decode().strip()))
        sys.exit(1)
    return took, drawn, cost, done.stdout.decode().split("\n")[1]


def show(name, times):
    if times:
        print("%-24s %-12s pace %.2f s   dot %.2f s, %.2f s of the processor" % (name, times[3], *times[:3]), flush=True)


def main():
    if shutil.which("dot") is None:
        print("plans.py: Graphviz isn't installed")
        return
    words = argparse.ArgumentParser(description=__doc__, formatter_class=argparse.RawDescriptionHelpFormatter)
    words.add_argument("--programs", type=int, default=200)
    words.add_argument("--pace", default=os.path.join(TOP, "pace"))
    words.add_argument("--scale", default=os.path.join(TOP, "scale"))
    given = words.parse_args()
    most = [(0.0, "none")] * 3
    with tempfile.TemporaryDirectory() as folder:
        for files in examples():
            name = os.path.basename(files[0])
            show(name, draw(given.pace, folder, name, files))
        for size in LARGE:
            name = "made 7 of %d" % size
            show(name, draw(given.pace, folder, name, made(given.scale, folder, 7, size)))
        for number in range(given.programs):
            name = "made %d" % number
            times = draw(given.pace, folder, name, made(given.scale, folder, number, 5 + number))
            if times:
                most = [max(old, (new, "%s, %s" % (name, times[3]))) for old, new in zip(most, times)]
    words = ["pace", "dot", "the processor for dot"]
    told = ["%s at most %.2f s (%s)" % (word, *greatest) for word, greatest in zip(words, most)]
    print("%d made programs: %s" % (given.programs, ", ".join(told)))


if __name__ == "__main__":
    main()

#!/usr/bin/env python3
"""Prints what the images that `pace fit` stores of C programs save over those of `scale hold`, on inputs that they were fitted to and on others.

    fit_programs.py [--jobs N] [--pace PROGRAM] [--scale PROGRAM] [--versions] [--seen] [FOLDER ..]

Each FOLDER has one program in C, FOLDER/NAME.c, and may have inputs in FOLDER/inputs, eight at least; else eight of up to 64 bytes are drawn. Without any
the six examples with inputs and the programs of bench/programs are taken. gcc and clang build each at -O0, -O1, -O2 and -Os, with branches for switches. `pace loops`
drafts the loop files; a loop that stays open gets the most turns that any of the inputs takes, as `scale survey` tells it. A build whose loops can't be drafted or in whose runs
nothing counts is told and left out. With `--seen` each loop gets the most turns of any input, also where the draft has a bound of it: what one might write who knows the
program, where a proved bound may be far above it.

Deadlines are 1.5, 2.5 and 3.0 times the worst cycles; levels take 4, 2 and 1 time units and 1, 3 and 8 energy units a cycle, a switch takes 10 and 20. Images are fitted to
the first and the third input. For each deadline there is the geometric mean of the energies over those of `hold`, and the greatest, on the inputs that were fitted to together and
on each of the others. Then the same of the builds in whose draft no loop is open. A run that breaks the promise is told, as by `fit.py`, and the status is 1. With `--versions`, images are those of `pace all` where no loop is open in the draft,
else those of `pace fit --versions`, and it is told how many have code twice.
"""

import argparse
import glob
import os
import random
import re
import sys
import tempfile
from concurrent.futures import ProcessPoolExecutor

from compilers import LEVELS, build
from fit import DEADLINES, FITTED, breaches, counts, mean, number, run
from runs import TOP

EXAMPLES = ("pid", "modbus", "codec", "median", "sparse", "fsm")
INPUTS = 8


class Build:
    """A program by a compiler, in a folder of its own, with its machine file, its loop file and its inputs."""

    def __init__(self, tools, room, folder, compiler, level):
        self.tools, self.room, self.folder, self.compiler, self.level = tools, room, folder, compiler, level
        self.name = f"{os.path.basename(os.path.normpath(folder))} by {compiler} {level}"
        self.inputs = sorted(glob.glob(folder + "/inputs/*"))[:INPUTS]
        if len(self.inputs) < INPUTS:
            self.inputs = self.drawn()

    def path(self, name):
        return os.path.join(self.room, name)

    def drawn(self):
        draw = random.Random(os.path.basename(os.path.normpath(self.folder)))
        for k in range(INPUTS):
            with open(self.path(f"input{k}"), "wb") as file:
                file.write(draw.randbytes(draw.randint(1, 64)))
        return [self.path(f"input{k}") for k in range(INPUTS)]

    def with_deadline(self, deadline):
        with open(os.path.join(TOP, "bench", "programs", "machine.toml")) as file:
            text = file.read()
        with open(self.path("m"), "w") as file:
            file.write(re.sub(r"^deadline = \d+$", f"deadline = {deadline}", text, flags=re.M))

    def files(self):
        return self.path("p.elf"), self.path("m"), self.path("loops")

    def simulate(self, image, given, *loops):
        status, text = run(self.tools.scale, "simulate", self.path(image), self.path("m"), given, self.path("out"), *loops)
        with open(self.path("out"), "rb") as file:
            return status, text, file.read()

    def fill(self):
        """Gives each loop that is open in the draft the most turns of any input, and with `--seen` all others, too."""
        with open(self.path("loops")) as file:
            draft = file.read()
        self.is_closed = "# no bound" not in draft and not self.tools.seen
        if self.is_closed:
            return
        with open(self.path("loops"), "w") as file:
            file.write(re.sub(r"(?m)^# no bound.*$", "bound = 1000000000", draft))
        text = run(self.tools.scale, "survey", self.path("p.elf"), self.path("p.elf"), self.path("m"), self.path("loops"), *self.inputs)[1]
        most = iter(re.findall(r"^loop \d+ most (\d+)$", text, re.M))

        def filled(lines):
            turns, least = int(next(most)), lines[1]
            if lines[0].startswith("#"):
                return f"bound = {turns}"
            if not self.tools.seen:
                return lines[0]
            return f"bound = {turns}" + (f"\nat_least = {min(turns, int(least))}" if least and turns else "")

        with open(self.path("loops"), "w") as file:
            file.write(re.sub(r"(?m)^(?:bound = \d+(?:\nat_least = (\d+))?|# no bound.*)$", filled, draft))

    def worst(self):
        """The worst cycles; None where the program isn't built or its loops can't be drafted."""
        if not build(self.compiler, self.level, glob.glob(self.folder + "/*.c")[0], self.path("p.elf"), "-fno-jump-tables"):
            return None
        self.with_deadline(10**18)
        if run(self.tools.pace, "loops", self.path("p.elf"), self.path("loops"))[0]:
            return None
        self.fill()
        status, text = run(self.tools.scale, "hold", *self.files(), self.path("held"))
        return None if status else number(text, "worst cycles")


def fit(program, deadline):
    """What is broken of an image that is fitted to the first and third input, by input the ratio of its energy to that of the held one, and whether a loop is there twice."""
    program.with_deadline(deadline)
    run(program.tools.scale, "hold", *program.files(), program.path("held"))
    image, machine, loops = program.files()
    given = [program.path("fitted"), *(program.inputs[k] for k in FITTED)]
    if program.tools.versions and program.is_closed:
        status, text = run(program.tools.pace, "all", image, machine, *given)
    else:
        tried = ["--versions"] if program.tools.versions else []
        status, text = run(program.tools.pace, "fit", image, machine, loops, *given, *tried)
    if status:
        return [f"status {status}"], {}, False
    faults, ratios = [], {}
    # The cycles of a versioned image are compared with its own run's, not the original's.
    is_versioned = re.search("^version ", text, re.M) is not None
    for k, given in enumerate(program.inputs):
        original = program.simulate("p.elf", given, program.path("loops"))
        if counts(original):
            paced, held = program.simulate("fitted", given), program.simulate("held", given)
            faults += [f"input {k}: {what}" for what in breaches(text, deadline, original, paced) if not (is_versioned and what == "too many cycles")]
            ratios[k] = (number(paced[1], "energy"), number(held[1], "energy"))
    return faults, ratios, is_versioned


def rows_of(tools, folder, compiler, level):
    """What is told of a build, how many faults that is, and by deadline the ratios on fitted inputs and on others."""
    told, faults, rows = [], 0, {}
    with tempfile.TemporaryDirectory(prefix="scale-fit-") as room:
        program = Build(tools, room, folder, compiler, level)
        worst = program.worst()
        if not worst:
            return [f"{program.name}: left out"], 0, {}
        for factor in DEADLINES:
            broken, ratios, is_versioned = fit(program, int(factor * worst))
            told += [f"{program.name}, deadline {factor} times the worst cycles: {what}" for what in broken]
            faults += len(broken)
            fitted = [ratios[k] for k in FITTED if k in ratios]
            new = [one / other for k, (one, other) in ratios.items() if k not in FITTED]
            of_fitted = [sum(one for one, _ in fitted) / sum(other for _, other in fitted)] if fitted else []
            rows[factor] = (of_fitted, new, is_versioned, program.is_closed)
            if tools.each:
                told.append(f"{program.name}, {factor}: fitted {mean(rows[factor][0]):.3f}, new {mean(new):.3f}, at most {max(new, default=1):.3f}")
    return told, faults, rows


def table(rows):
    """Prints the means and the greatest by deadline."""
    print("| deadline, in worst cycles | fitted: mean | greatest | new: mean | greatest |")
    print("|---|---|---|---|---|")
    for factor, found in rows.items():
        fitted, new = ([ratio for row in found for ratio in row[part]] for part in (0, 1))
        print("| %.1f | %.3f | %.3f | %.3f | %.3f |" % (factor, mean(fitted), max(fitted, default=1), mean(new), max(new, default=1)))


def main():
    words = argparse.ArgumentParser(description=__doc__, formatter_class=argparse.RawDescriptionHelpFormatter)
    words.add_argument("--jobs", type=int, default=os.cpu_count())
    words.add_argument("--versions", action="store_true", help="fit images in which a loop is there twice, too")
    words.add_argument("--seen", action="store_true", help="take the most turns of any input as the bounds of all loops")
    words.add_argument("--each", action="store_true", help="tell of each build, too")
    words.add_argument("--pace", default=f"{TOP}/pace")
    words.add_argument("--scale", default=f"{TOP}/scale")
    words.add_argument("folders", nargs="*")
    tools = words.parse_args()
    folders = tools.folders or [f"{TOP}/examples/{name}" for name in EXAMPLES] + sorted(glob.glob(f"{TOP}/bench/programs/*/"))
    folders = [folder for folder in folders if glob.glob(folder + "/*.c")]
    calls = [(tools, folder, compiler, level) for folder in folders for compiler in ("gcc", "clang") for level in LEVELS]
    rows, wrong, builds = {factor: [] for factor in DEADLINES}, 0, 0
    with ProcessPoolExecutor(tools.jobs) as pool:
        for told, faults, found in pool.map(rows_of, *zip(*calls)):
            print(*told, sep="\n", end="\n" if told else "", file=sys.stderr, flush=True)
            wrong, builds = wrong + faults, builds + bool(found)
            for factor, row in found.items():
                rows[factor].append(row)
    print(f"{builds} builds")
    table(rows)
    closed = {factor: [row for row in found if row[3]] for factor, found in rows.items()}
    print(f"{len(closed[DEADLINES[0]])} of them without an open loop")
    table(closed)
    if tools.versions:
        print("a loop is there twice: " + ", ".join("%d at %.1f" % (sum(row[2] for row in found), factor) for factor, found in rows.items()))
    return 1 if wrong else 0


if __name__ == "__main__":
    sys.exit(main())

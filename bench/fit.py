#!/usr/bin/env python3
"""Prints what the images that `pace fit` stores save over those of `scale hold`, and checks each of their runs from outside the proof.

    fit.py [--programs N] [--size BLOCKS] [--first NUMBER] [--pace PROGRAM] [--scale PROGRAM]

It makes N programs by `scale make`, from the number NUMBER on, of BLOCKS blocks, and for each four inputs of 256 bytes by their number. With a deadline of 1.5,
2.5 and 3.0 times the worst cycles it fits an image to two of the inputs, and runs it and that of `hold` on all four. Levels take 4, 2 and 1 time units
and 1, 3 and 8 energy units a cycle, a switch takes 10 and 20.

For each deadline it prints how many programs there are, in how many of them something is saved, the geometric mean and the greatest of the energies over those of
`hold`, on the inputs that were fitted to and on the others, and the mean number of bytes that are added. A run that breaks the promise is told, and the
status is 1: another output or ending than the original's, a time over the deadline, a level that ends above the one that it began at, more energy than its held energy, or
more cycles than the printed number over the original's; and more energy than that of `hold` on the inputs that were fitted to.
"""

import argparse
import math
import os
import random
import re
import subprocess
import sys
import tempfile

from runs import TOP

DEADLINES = (1.5, 2.5, 3.0)
FITTED, NEW = (0, 2), (1, 3)
INPUT = 256


def run(program, *words):
    done = subprocess.run([program, *map(str, words)], stdout=subprocess.PIPE, stderr=subprocess.PIPE)
    return done.returncode, done.stdout.decode()


def number(text, name):
    return int(re.search(rf"^{name} (\d+)", text, re.M)[1])


class Program:
    """A made program in a folder, with its inputs."""

    def __init__(self, tools, folder, which, size):
        self.tools, self.folder, self.name = tools, folder, f"program {which} of {size} blocks"
        run(tools.scale, "make", which, size, self.path("p"))
        with open(self.path("p.machine")) as file:
            self.machine = file.read()
        draw = random.Random(which)
        for k in range(4):
            with open(self.path(f"input{k}"), "wb") as file:
                file.write(draw.randbytes(INPUT))

    def path(self, name):
        return os.path.join(self.folder, name)

    def files(self):
        return self.path("p.elf"), self.path("m"), self.path("p.loops")

    def with_deadline(self, deadline):
        with open(self.path("m"), "w") as file:
            file.write(re.sub(r"^deadline = \d+$", f"deadline = {deadline}", self.machine, flags=re.M))

    def simulate(self, image, k, *loops):
        """The status, the report and the output of a run."""
        status, text = run(self.tools.scale, "simulate", self.path(image), self.path("m"), self.path(f"input{k}"), self.path("out"), *loops)
        with open(self.path("out"), "rb") as file:
            return status, text, file.read()

    def worst(self):
        self.with_deadline(10**18)
        return number(run(self.tools.scale, "hold", *self.files(), self.path("held"))[1], "worst cycles")


def breaches(summary, deadline, original, paced):
    """What the run of an image breaks of which this summary was printed, by the original's on the same input: of each the status, the report and the output."""
    (status, text, output), (paced_status, report, paced_output) = original, paced
    told = {
        "another ending": paced_status != status or re.findall(r"^end .*", report, re.M) != re.findall(r"^end .*", text, re.M),
        "another output": paced_output != output,
        "too late": number(report, "time") > deadline,
        "a higher level": number(report, "level") > number(summary, "start level"),
        "more than its held energy": number(report, "energy") > number(report, "held"),
        "too many cycles": number(report, "cycles") > number(text, "cycles") + number(summary, "stub cycles at most"),
    }
    return [what for what, is_so in told.items() if is_so]


def counts(original):
    """Whether the run of the original exits and keeps the loop file."""
    status, text, _ = original
    return status == 0 and "kept yes" in text


def broken(program, deadline, summary, k):
    """What the run of the fitted image on an input breaks, and the energies of that run and of the held one's, where the input counts."""
    original = program.simulate("p.elf", k, program.path("p.loops"))
    if not counts(original):
        return [], None
    paced, held = program.simulate("fitted", k), program.simulate("held", k)
    return breaches(summary, deadline, original, paced), (number(paced[1], "energy"), number(held[1], "energy"))


def fit(program, factor, worst, inputs=FITTED):
    """Fits an image to these inputs: what is broken, the ratios of the energies on the fitted inputs together and on each new one, and the bytes that are added."""
    deadline = int(factor * worst)
    program.with_deadline(deadline)
    run(program.tools.scale, "hold", *program.files(), program.path("held"))
    status, text = run(program.tools.pace, "fit", *program.files(), program.path("fitted"), *(program.path(f"input{k}") for k in inputs))
    if status:
        return [f"status {status}"], None, [], 0
    found = {k: broken(program, deadline, text, k) for k in FITTED + NEW}
    faults = [f"input {k}: {what}" for k in found for what in found[k][0]]
    fitted = [found[k][1] for k in FITTED if found[k][1]]
    if inputs and fitted and sum(one for one, _ in fitted) > sum(other for _, other in fitted):
        faults.append("more energy than that of hold on the inputs that were fitted to")
    ratio = sum(one for one, _ in fitted) / sum(other for _, other in fitted) if fitted else None
    return faults, ratio, [one / other for one, other in (found[k][1] for k in NEW if found[k][1])], number(text, "stub bytes")


def mean(ratios):
    return math.exp(sum(map(math.log, ratios)) / len(ratios)) if ratios else 1.0


def main():
    words = argparse.ArgumentParser()
    words.add_argument("--programs", type=int, default=30)
    words.add_argument("--size", type=int, default=60)
    words.add_argument("--first", type=int, default=1000)
    words.add_argument("--pace", default=os.path.join(TOP, "pace"))
    words.add_argument("--scale", default=os.path.join(TOP, "scale"))
    tools = words.parse_args()
    rows = {factor: [] for factor in DEADLINES}
    faults = 0
    for which in range(tools.first, tools.first + tools.programs):
        with tempfile.TemporaryDirectory() as folder:
            program = Program(tools, folder, which, tools.size)
            worst = program.worst()
            for factor in DEADLINES:
                found = fit(program, factor, worst)
                rows[factor].append(found)
                for fault in found[0]:
                    faults += 1
                    print(f"{program.name}, deadline {factor} times the worst cycles: {fault}", flush=True)
    print("deadline  programs  saving   fitted: mean  most     new: mean  most   bytes")
    for factor, found in rows.items():
        fitted = [ratio for _, ratio, _, _ in found if ratio]
        new = [ratio for _, _, ratios, _ in found for ratio in ratios]
        saving = sum(ratio < 1 for ratio in fitted)
        added = sum(more for *_, more in found) / max(len(found), 1)
        print("%8.1f  %8d  %6d   %12.3f %5.3f  %11.3f %5.3f  %6.0f" % (factor, len(found), saving, mean(fitted), max(fitted, default=1), mean(new), max(new, default=1), added))
    print(f"{faults} faults")
    return faults > 0


if __name__ == "__main__":
    sys.exit(main())

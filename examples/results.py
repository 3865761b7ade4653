#!/usr/bin/env python3
"""Prints what images of the examples take, as the table of docs/RESULTS.md.

    results.py SCALE [PACE]

Images are tuned and fitted on the inputs of odd numbers, and run on those of even ones. Of these the table has the energy of the original at full speed, and what
`hold`, `rewrite`, `tune` and, where PACE is given, `pace fit` and `pace all` take of it, in percent; and what one takes at least who knows each run's cycles beforehand,
mixes any two levels and pays nothing for switches. `pace all` has no loop file: where a loop stays open it says so.
"""

import math
import os
import subprocess
import sys
import tempfile
import tomllib
from fractions import Fraction

EXAMPLES = os.path.dirname(os.path.abspath(__file__))
ALL = ("pid", "modbus", "codec", "median", "sparse", "fsm")


def run(program, *words):
    """What a command prints; None where it is refused."""
    done = subprocess.run([program, *words], stdout=subprocess.PIPE, stderr=subprocess.PIPE, text=True)
    if done.returncode not in (0, 1):
        sys.exit(f"{' '.join(words)}: status {done.returncode}\n{done.stderr}")
    return done.stdout if done.returncode == 0 else None


def number(text, name):
    return next(int(line.split()[-1]) for line in text.splitlines() if line.startswith(name + " "))


def least(cycles, machine):
    """The least energy of so many cycles within the deadline, by any mix of two levels."""
    levels, deadline = machine["level"], machine["deadline"]
    found = [cycles * level["energy"] for level in levels if cycles * level["period"] <= deadline]
    for slow in levels:
        for fast in levels:
            if slow["period"] * cycles > deadline >= fast["period"] * cycles:
                share = Fraction(deadline - fast["period"] * cycles, slow["period"] - fast["period"])
                found.append(share * slow["energy"] + (cycles - share) * fast["energy"])
    return math.floor(min(found))


def taken(scale, original, made, machine, given):
    """The energy of the runs of an image, which have the output of the original and are in time."""
    energy = 0
    for name in given:
        outs, texts = [], []
        for image in (original, made):
            texts.append(run(scale, "simulate", image, machine, name, made + ".out"))
            with open(made + ".out", "rb") as file:
                outs.append(file.read())
        with open(machine, "rb") as file:
            assert number(texts[1], "time") <= tomllib.load(file)["deadline"] and outs[0] == outs[1], name
        energy += number(texts[1], "energy")
    return energy


def row(scale, pace, example, folder):
    """The row of an example."""
    at = lambda *names: os.path.join(EXAMPLES, example, *names)  # noqa: E731
    with open(at("machine.toml"), "rb") as file:
        machine = tomllib.load(file)
    original, image = at(example + ".elf"), at(example + ".elf")
    if os.path.exists(at("jumps.toml")):
        image = os.path.join(folder, "lowered")
        run(scale, "lower", original, at("jumps.toml"), image)
    inputs = sorted(os.listdir(at("inputs")), key=int)
    fitted, new = ([at("inputs", name) for name in inputs if int(name) % 2 == odd] for odd in (1, 0))
    files = (image, at("machine.toml"), at("loops.toml"))
    runs = [run(scale, "simulate", original, at("machine.toml"), name, os.path.join(folder, "out")) for name in new]
    full = sum(number(text, "energy") for text in runs)
    cells = []
    for kind, words in (("hold", ()), ("rewrite", ()), ("tune", fitted), *([("fit", fitted)] if pace else [])):
        out = os.path.join(folder, kind)
        if run(pace if kind == "fit" else scale, kind, *files, out, *words) is None:
            cells.append("refused")
            continue
        survey = run(scale, "survey", image, out, at("machine.toml"), at("loops.toml"), *new)
        assert number(survey, "late") == 0 and number(survey, "differ") == 0, example
        cells.append("%.1f" % (100 * number(survey, "energy") / full))
    if pace:
        made = os.path.join(folder, "all")
        stored = run(pace, "all", original, at("machine.toml"), made, *fitted) is not None
        cells.append("%.1f" % (100 * taken(scale, original, made, at("machine.toml"), new) / full) if stored else "open")
    bound = sum(least(number(text, "cycles"), machine) for text in runs)
    return f"| {example} | {full} | {' | '.join(cells)} | {100 * bound / full:.1f} |"


def main():
    scale, pace = [*sys.argv[1:], None][:2]
    print("| example | original | hold | rewrite | tune |" + (" fit | all |" if pace else "") + " least |")
    for example in ALL:
        with tempfile.TemporaryDirectory(prefix="scale-results-") as folder:
            print(row(scale, pace, example, folder))


if __name__ == "__main__":
    main()

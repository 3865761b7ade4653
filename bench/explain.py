#!/usr/bin/env python3
"""Explains where the worst cycles go by `pace explain`, of the examples and of made programs, and checks the numbers from outside the proof.

    explain.py [--programs N] [--jobs N] [--first NUMBER] [--pace PROGRAM] [--scale PROGRAM]

It makes programs by `scale make`, from the number NUMBER on, of 2 to 64 blocks, without a deadline, with one that some of them miss, and each fourth without its loop file. What is told, with the number of
the program: where `pace explain` refuses something else than `scale hold`; where the worst cycles aren't those that `hold` prints, the own cycles don't add up to them, or those of the program's function with
all aren't they; lines out of order or twice; an own number over all, or all over the worst; a loop that turns more often than its entries and its bound allow, or that is none of the loop file; and no walk at
all. It prints how many programs there were, how many of them were refused, how many lines, and how many faults; with a fault the status is 1.
"""

import argparse
import glob
import os
import random
import re
import struct
import sys
import tempfile
import tomllib
from concurrent.futures import ProcessPoolExecutor

from fit import number, run
from runs import TOP

FUNCTION = re.compile(r"function 0x([0-9a-f]{8})(?: (\S+))? calls (\d+) own (\d+) all (\d+)")
LOOP = re.compile(r"loop (\d+) 0x([0-9a-f]{8})(?: (\S+))? entries (\d+) turns (\d+) own (\d+) all (\d+)")


def lines_of(text):
    """The lines: (own, address, 0 for a function and 1 for a loop, all, how often, turns, number of the loop)."""
    lines = []
    for line in text.splitlines()[1:]:
        if found := FUNCTION.fullmatch(line):
            at, _, calls, own, all_cycles = found.groups()
            lines.append((int(own), int(at, 16), 0, int(all_cycles), int(calls), 0, 0))
        elif found := LOOP.fullmatch(line):
            which, at, _, entries, turns, own, all_cycles = found.groups()
            lines.append((int(own), int(at, 16), 1, int(all_cycles), int(entries), int(turns), int(which)))
        else:
            raise ValueError(line)
    return lines


def line_faults(lines, worst, loops):
    """What is wrong with single lines, and with their order."""
    faults = [f"order at line {k + 2}" for k, (one, other) in enumerate(zip(lines, lines[1:])) if (-one[0], *one[1:3]) >= (-other[0], *other[1:3])]
    for own, at, kind, all_cycles, times, turns, which in lines:
        if not own <= all_cycles <= worst or times == 0:
            faults.append(f"own {own} of {all_cycles}, {times} times, at {at:#x}")
        if kind and not (1 <= which <= len(loops) and turns <= times * loops[which - 1]["bound"]):
            faults.append(f"loop {which} turns {turns} times")
    return faults


def faults_of(tools, folder, image, machine, loops):
    """What is wrong with the explanation of a program: whether it is refused, how many lines it has, and the faults."""
    held = run(tools.scale, "hold", image, machine, loops, f"{folder}/held.elf")
    status, text = run(tools.pace, "explain", image, machine, loops)
    if held[0]:
        return True, 0, [] if (status, text) == held else [f"{text!r} where hold says {held[1]!r}"]
    if status or text.split("\n", 2)[1] == "walk not found":
        return False, 0, [f"status {status}: {text!r}"]
    worst, lines = number(held[1], "worst cycles"), lines_of(text)
    with open(loops, "rb") as file:
        notes = tomllib.load(file).get("loop", [])
    with open(image, "rb") as file:
        entry = struct.unpack_from("<I", file.read(28), 24)[0]
    faults = line_faults(lines, worst, notes)
    if number(text, "worst cycles") != worst or sum(line[0] for line in lines) != worst:
        faults.append(f"{sum(line[0] for line in lines)} own cycles of {worst}")
    if [line[3:5] for line in lines if line[1:3] == (entry, 0)] != [(worst, 1)]:
        faults.append("the program's function")
    return False, len(lines), faults


def made_faults(tools, which):
    """The same of a made program."""
    draw = random.Random(which)
    with tempfile.TemporaryDirectory() as folder:
        run(tools.scale, "make", which, draw.randint(2, 64), f"{folder}/p")
        with open(f"{folder}/p.machine") as file:
            machine = file.read()
        with open(f"{folder}/m", "w") as file:
            file.write(re.sub(r"^deadline = .*$", f"deadline = {draw.choice((10**18, 10**18, 10**18, 20000))}", machine, flags=re.M))
        if which % 4 == 0:
            with open(f"{folder}/p.loops", "w") as file:
                file.write("version = 1\n")
        refused, lines, faults = faults_of(tools, folder, f"{folder}/p.elf", f"{folder}/m", f"{folder}/p.loops")
    return refused, lines, [f"program {which}: {fault}" for fault in faults]


def example_faults(tools, folder):
    """The same of an example, as gcc builds it."""
    name = os.path.basename(folder)
    with tempfile.TemporaryDirectory() as out:
        refused, lines, faults = faults_of(tools, out, f"{folder}/{name}.elf", f"{folder}/machine.toml", f"{folder}/loops.toml")
    return refused, lines, [f"{name}: {fault}" for fault in faults]


def main():
    words = argparse.ArgumentParser()
    words.add_argument("--programs", type=int, default=1000)
    words.add_argument("--jobs", type=int, default=os.cpu_count())
    words.add_argument("--first", type=int, default=1)
    words.add_argument("--pace", default=os.path.join(TOP, "pace"))
    words.add_argument("--scale", default=os.path.join(TOP, "scale"))
    tools = words.parse_args()
    examples = sorted(os.path.dirname(path) for path in glob.glob(os.path.join(TOP, "examples", "*", "machine.toml")))
    made = range(tools.first, tools.first + tools.programs)
    with ProcessPoolExecutor(tools.jobs) as pool:
        told = [*pool.map(example_faults, [tools] * len(examples), examples), *pool.map(made_faults, [tools] * len(made), made, chunksize=8)]
    faults = [fault for _, _, some in told for fault in some]
    print("\n".join(faults), end="\n" if faults else "")
    print(f"{len(told)} programs, {sum(refused for refused, _, _ in told)} refused, {sum(lines for _, lines, _ in told)} lines, {len(faults)} faults")
    return len(faults) > 0


if __name__ == "__main__":
    sys.exit(main())

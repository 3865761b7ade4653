#!/usr/bin/env python3
"""Fits images to inputs by `pace fit`, many and small ones, and checks each of their runs from outside the proof.

    fuzz_fit.py [--images N] [--jobs N] [--first NUMBER] [--pace PROGRAM] [--scale PROGRAM]

It makes programs by `scale make`, from the number NUMBER on, of 2 to 24 blocks, and for each four inputs of up to 256 bytes by its number. For each it draws eight deadlines from 1.02 to 4.5
times the worst cycles, with costs of switches and periods of levels by the number, and fits an image to none to three of the inputs. Each image runs on all four inputs. A run that breaks the promise is told,
with the number of the program: another output or ending than the original's, a time over the deadline, a level that ends above the one that it began at, more energy than its held energy, or more cycles
than the printed number over the original's; and an image that is refused where `hold` refuses nothing. It prints how many images there were, how many of them have switches, and how many faults;
with a fault the status is 1.
"""

import argparse
import os
import random
import re
import sys
import tempfile
from concurrent.futures import ProcessPoolExecutor

from fit import breaches, counts, number, run
from runs import TOP

IMAGES_A_PROGRAM, INPUTS = 8, 4
LEVELS = (((4, 1), (2, 3), (1, 8)), ((3, 1), (2, 2), (1, 5)), ((8, 1), (1, 20)), ((8, 1), (4, 2), (2, 5), (1, 12)))


def machine_text(text, draw, deadline):
    """The machine file with another deadline, and with switches and levels that are drawn."""
    head, _, _ = text.partition("[[level]]")
    for name, value in (("deadline", deadline), ("switch_time", draw.choice((0, 5, 10, 40))), ("switch_energy", draw.choice((0, 20, 80)))):
        head = re.sub(rf"^{name} = .*$", f"{name} = {value}", head, flags=re.M)
    return head + "".join(f"[[level]]\nperiod = {period}\nenergy = {energy}\n" for period, energy in draw.choice(LEVELS))


def simulated(tools, folder, image, k, *loops):
    status, text = run(tools.scale, "simulate", f"{folder}/{image}", f"{folder}/m", f"{folder}/input{k}", f"{folder}/out", *loops)
    with open(f"{folder}/out", "rb") as file:
        return status, text, file.read()


def program_faults(tools, which):
    """Images of a made program: how many, how many have switches, and what is wrong."""
    draw = random.Random(which)
    images, switched, faults = 0, 0, []
    with tempfile.TemporaryDirectory() as folder:
        run(tools.scale, "make", which, draw.randint(2, 24), f"{folder}/p")
        with open(f"{folder}/p.machine") as file:
            machine = file.read()
        for k in range(INPUTS):
            with open(f"{folder}/input{k}", "wb") as file:
                file.write(draw.randbytes(draw.choice((0, 1, 16, 64, 256))))
        files = (f"{folder}/p.elf", f"{folder}/m", f"{folder}/p.loops")
        with open(f"{folder}/m", "w") as file:
            file.write(re.sub(r"^deadline = .*$", f"deadline = {10**18}", machine, flags=re.M))
        worst = number(run(tools.scale, "hold", *files, f"{folder}/held")[1], "worst cycles")
        originals = [simulated(tools, folder, "p.elf", k, f"{folder}/p.loops") for k in range(INPUTS)]
        for _ in range(IMAGES_A_PROGRAM):
            deadline = int(worst * draw.uniform(1.02, 4.5))
            with open(f"{folder}/m", "w") as file:
                file.write(machine_text(machine, draw, deadline))
            inputs = [f"{folder}/input{k}" for k in draw.sample(range(INPUTS), draw.randint(0, 3))]
            status, summary = run(tools.pace, "fit", *files, f"{folder}/fitted", *inputs)
            if status:
                if (status, summary) != run(tools.scale, "hold", *files, f"{folder}/held"):
                    faults.append(f"program {which}, deadline {deadline}: status {status}")
                continue
            images += 1
            switched += "no switches" not in summary
            for k, original in enumerate(originals):
                told = breaches(summary, deadline, original, simulated(tools, folder, "fitted", k)) if counts(original) else []
                faults += [f"program {which}, deadline {deadline}, input {k}: {what}" for what in told]
    return images, switched, faults


def fuzz(program_faults, most, images_a_program, what, *flags):
    """Makes images of programs side by side, as many as the words of the command line say or `most`, and prints what is wrong of them and how many have what is sought.
    Whether something is wrong. The words may have these flags, too."""
    words = argparse.ArgumentParser()
    words.add_argument("--images", type=int, default=most)
    words.add_argument("--jobs", type=int, default=os.cpu_count())
    words.add_argument("--first", type=int, default=1)
    words.add_argument("--pace", default=os.path.join(TOP, "pace"))
    words.add_argument("--scale", default=os.path.join(TOP, "scale"))
    for flag in flags:
        words.add_argument(flag, action="store_true")
    tools = words.parse_args()
    images = having = faults = 0
    numbers = range(tools.first, tools.first + tools.images // images_a_program)
    with ProcessPoolExecutor(tools.jobs) as pool:
        for some, with_it, told in pool.map(program_faults, [tools] * len(numbers), numbers, chunksize=4):
            images, having, faults = images + some, having + with_it, faults + len(told)
            for fault in told:
                print(fault, flush=True)
    print(f"{images} images, {having} of them with {what}, {faults} faults")
    return faults > 0


if __name__ == "__main__":
    sys.exit(fuzz(program_faults, 2000, IMAGES_A_PROGRAM, "switches"))

#!/usr/bin/env python3
"""Stores images in which loops are there twice, by `pace all`, many and small ones, and checks each of their runs from outside the proof.

    fuzz_versions.py [--by-hand] [--images N] [--jobs N] [--first NUMBER] [--pace PROGRAM] [--scale PROGRAM]

It makes programs by number, from NUMBER on: of one to four loops over what was read, that count down, go from pointer to pointer, turn other loops inside, call functions that call
others, or are left out by a byte of the input. For each it draws inputs of up to 64 bytes and two deadlines from 1.02 to 4.5 times the worst cycles, with costs of switches and periods
of levels, and has an image made for one to three of the inputs. Each image runs on all of them. With `--by-hand` images are those of `pace fit --versions` with a loop file as one writes it by
hand, of which half the bounds are less than what is proved, and runs that break these are left out. A run that breaks the promise is told with the number of the program: another output or
ending than the original's, a time over the deadline, a level that ends above the one that it began at, more energy than its held energy; and more energy than `hold` takes over the inputs
that were given. It prints how many images there were, how many of them have a loop twice, and how many faults; with a fault the status is 1.
"""

import os
import random
import re
import sys
import tempfile

from fit import breaches, counts, number, run
from fuzz_fit import fuzz, machine_text, simulated
from runs import TOP

sys.path.insert(0, os.path.join(TOP, ".ci"))
from images import Image

IMAGES_A_PROGRAM, INPUTS, READ = 2, 5, 64
OF_SUM = ("addi x22, x22, 3", "xor x22, x22, x7", "mul x22, x22, x7", "add x22, x22, x7", "div x22, x22, x23", "srli x22, x22, 1", "sub x22, x7, x22")


class Writer:
    """The lines of a program, whose labels and functions are numbered."""

    def __init__(self, draw):
        self.draw, self.labels, self.lines, self.functions = draw, 0, [], []

    def label(self):
        self.labels += 1
        return f"l{self.labels}"

    def work(self):
        """Some instructions over the sum in x22 and the byte in x7; x23 isn't 0."""
        return [self.draw.choice(OF_SUM) for _ in range(self.draw.randint(1, 6))]

    def function(self, depth):
        """The name of a new function, which changes x6, x7, x22 and x28 at most; it may call another one."""
        name, body = f"f{len(self.functions)}", []
        self.functions.append(body)
        body.append(name + ":")
        calls = depth > 0 and self.draw.random() < 0.5
        if calls:
            body += ["addi x2, x2, -16", "sw x1, 12(x2)"]
        body += self.work()
        if self.draw.random() < 0.4:
            body += self.inner(self.work())
        if calls:
            body += [f"jal x1, {self.function(depth - 1)}", *self.work(), "lw x1, 12(x2)", "addi x2, x2, 16"]
        body.append("ret")
        return name

    def inner(self, work):
        """A loop that turns as often as some bits of x7 say, over x28."""
        turn, behind = self.label(), self.label()
        return [f"andi x28, x7, {self.draw.choice((1, 3, 7, 15))}", f"beq x28, x0, {behind}", turn + ":", *work, "addi x28, x28, -1", f"bne x28, x0, {turn}", behind + ":"]

    def body(self):
        """What a loop over the input does in a turn: with x7, x22, x28, and x6 in calls."""
        lines = self.work()
        for part in (lambda: self.inner(self.work()), lambda: [f"jal x1, {self.function(2)}"], lambda: [f"jal x1, {self.draw.choice(self.functions)[0][:-1]}"] if self.functions else []):
            if self.draw.random() < 0.35:
                lines += part() + self.work()
        return lines

    def phase(self):
        """A loop over the bytes that were read, x20 of them from x21 on; it may be left out where the first byte is even."""
        turn, behind = self.label(), self.label()
        left_out = ["lbu x7, 0(x21)", "andi x7, x7, 1", f"beq x7, x0, {behind}"] if self.draw.random() < 0.3 else []
        kind = self.draw.randrange(3)
        if kind == 0:
            loop = ["addi x8, x20, 0", turn + ":", "add x7, x21, x8", "lbu x7, -1(x7)", *self.body(), "addi x8, x8, -1", f"bne x8, x0, {turn}"]
        elif kind == 1:
            loop = ["addi x8, x21, 0", "add x9, x21, x20", turn + ":", "lbu x7, 0(x8)", *self.body(), "addi x8, x8, 1", f"bltu x8, x9, {turn}"]
        else:
            loop = ["addi x8, x0, 0", turn + ":", "add x7, x21, x8", "lbu x7, 0(x7)", *self.body(), f"addi x8, x8, {self.draw.choice((1, 2, 3))}", f"blt x8, x20, {turn}"]
        return [*left_out, *loop, behind + ":"]

    def program(self):
        """Reads up to 64 bytes, goes over them, writes four bytes and exits."""
        lines = [f"addi x2, x2, -{READ}", "addi x17, x0, 63", "addi x11, x2, 0", f"addi x12, x0, {READ}", "ecall", "addi x20, x10, 0", "addi x21, x2, 0", "addi x22, x0, 1", "addi x23, x0, 3"]
        lines += ["bge x0, x20, exit"]
        for _ in range(self.draw.randint(1, 4)):
            lines += self.phase()
        lines += ["exit:", "sw x22, 0(x2)", "addi x17, x0, 64", "addi x10, x0, 1", "addi x11, x2, 0", "addi x12, x0, 4", "ecall", "andi x10, x22, 127", "addi x17, x0, 93", "ecall"]
        return lines + [line for function in self.functions for line in function]


def by_hand(draw, text):
    """A draft as one writes it by hand: half the bounds are less, and nothing is said of least turns."""

    def written(line):
        bound = int(line[1])
        return f"bound = {draw.randint(bound // 3, bound) if draw.random() < 0.5 else bound}"

    return re.sub(r"(?m)^bound = (\d+)$", written, re.sub(r"(?m)^at_least = \d+\n", "", text))


def program_faults(tools, which):
    """Images of a program: how many, how many have a loop twice, and what is wrong."""
    draw = random.Random(which)
    images, twice, faults = 0, 0, []
    with tempfile.TemporaryDirectory() as folder:
        with open(f"{folder}/p.elf", "wb") as file:
            file.write(Image(Writer(draw).program()).bytes())
        for k in range(INPUTS):
            with open(f"{folder}/input{k}", "wb") as file:
                file.write(draw.randbytes(draw.choice((0, 1, 4, 8, 16, 32, READ))))
        with open(os.path.join(TOP, "bench", "programs", "machine.toml")) as file:
            machine = file.read()
        with open(f"{folder}/m", "w") as file:
            file.write(machine)
        drafted = run(tools.pace, "loops", f"{folder}/p.elf", f"{folder}/loops")[0]
        if tools.by_hand and not drafted:
            with open(f"{folder}/loops") as file:
                draft = file.read()
            with open(f"{folder}/loops", "w") as file:
                file.write(by_hand(draw, draft))
        status, text = run(tools.scale, "hold", f"{folder}/p.elf", f"{folder}/m", f"{folder}/loops", f"{folder}/held")
        if drafted or status:
            return 0, 0, [f"program {which}: loops {drafted}, hold {status}, {text.strip()}"]
        for _ in range(IMAGES_A_PROGRAM):
            deadline = int(number(text, "worst cycles") * draw.uniform(1.02, 4.5))
            with open(f"{folder}/m", "w") as file:
                file.write(machine_text(machine, draw, deadline))
            inputs = [f"{folder}/input{k}" for k in draw.sample(range(INPUTS), draw.randint(1, 3))]
            program, made = (f"{folder}/p.elf", f"{folder}/m"), (f"{folder}/made", *inputs)
            if tools.by_hand:
                status, told = run(tools.pace, "fit", *program, f"{folder}/loops", *made, "--versions")
            else:
                status, told = run(tools.pace, "all", *program, *made)
            if status:
                faults.append(f"program {which}, deadline {deadline}: status {status}, {told.strip()}")
                continue
            images += 1
            twice += "\nversion 0x" in told
            if number(told, "energy") > number(told, "plain hold energy" if "plain hold energy" in told else "hold energy"):
                faults.append(f"program {which}, deadline {deadline}: more energy than that of hold")
            for k in range(INPUTS):
                loops = [f"{folder}/loops"] if tools.by_hand else []
                runs = [simulated(tools, folder, "p.elf", k, *loops), simulated(tools, folder, "made", k)]
                if tools.by_hand and not counts(runs[0]):
                    continue
                # The cycles that a guard adds are told nowhere.
                faults += [f"program {which}, deadline {deadline}, input {k}: {what}" for what in breaches(told, deadline, *runs) if what != "too many cycles"]
    return images, twice, faults


if __name__ == "__main__":
    sys.exit(fuzz(program_faults, 500, IMAGES_A_PROGRAM, "a loop twice", "--by-hand"))

#!/usr/bin/env python3
"""Prints how long `pace fit` takes on programs of 131,072 words with 16 inputs of some 10 million steps each, and how much memory.

    fit_speed.py [--words N] [--inputs N] [--steps N] [--pace PROGRAM] [--scale PROGRAM] [SHAPE ..]

It makes files in a temporary folder, and fits an image of each shape, at a deadline of 2.5 times the worst cycles:
- mixed: a loop over blocks with a branch that the input decides, of which the first 4,000 have a loop of their own;
- nest: loops in loops, 16 deep, with as much code at each depth;
- straight: a loop over a text without a branch;
- branches: a loop over a text whose every second word is a branch over the next one;
- calls: a loop that calls each of many functions, which have a branch;
- exits: a loop with an edge out of it at every other word, of which none is taken;
- backs: a loop with a way back to its header at every other word, of which none is taken.

The seconds are those of the processor. A run that takes more than 60 seconds or 512 megabytes is told, and the status is then 1.
"""

import argparse
import os
import random
import re
import subprocess
import sys
import tempfile

from graphs import ENTRY, EXIT, NOP, RETURN, image, jump
from runs import TOP, machine_text

SECONDS, MEGABYTES = 60, 512
NOTE = "[[loop]]\nheader = %d\nranges = [[%d, %d]]\nbound = %d\n"

# Registers: the bits of the input, and the counts of loops, by depth.
BITS, COUNTS = 20, [6, 7, 8, 9, 10, 12, 13, 14, 15, 16, 18, 19, 21, 22, 23, 24]


def immediate(target, source, value):
    """addi"""
    return (value & 0xFFF) << 20 | source << 15 | target << 7 | 0x13


def upper(target, value):
    """lui"""
    return value << 12 | target << 7 | 0x37


def constant(target, value):
    return [upper(target, (value + 0x800) >> 12 & 0xFFFFF), immediate(target, target, value & 0xFFF)]


def branch(unequal, one, other, offset):
    """beq, or bne"""
    bits = offset & 0x1FFF
    return (bits >> 12 & 1) << 31 | (bits >> 5 & 0x3F) << 25 | other << 20 | one << 15 | unequal << 12 | (bits >> 1 & 0xF) << 8 | (bits >> 11 & 1) << 7 | 0x63


def shifted(target, source, by):
    """srli"""
    return by << 20 | source << 15 | 5 << 12 | target << 7 | 0x13


def masked(target, source, bits):
    """andi"""
    return bits << 20 | source << 15 | 7 << 12 | target << 7 | 0x13


class Text:
    """The words of a text, and its loops."""

    def __init__(self):
        # Reads four bytes onto the stack, and loads them: addi x17,x0,63; addi x11,x2,0; addi x12,x0,4; ecall; lw x20,0(x11).
        self.words = [0x03F00893, 0x00010593, 0x00400613, 0x00000073, 0x0005AA03]
        self.notes = []

    def at(self):
        return ENTRY + 4 * len(self.words)

    def turned(self, register, turns, bound, body):
        """A loop of so many turns, counted by a register. The way back is a jump, which reaches as far as the text."""
        self.words += constant(register, turns)
        header = self.at()
        body()
        self.words += [immediate(register, register, -1), branch(0, register, 0, 8)]
        self.words.append(jump(0, header - self.at()))
        self.notes.append((header, self.at(), bound))

    def skip(self, bit, count):
        """Goes past so many words where a bit of the input is set."""
        self.words += [shifted(5, BITS, bit % 32), masked(5, 5, 1), branch(1, 5, 0, 4 * count + 4)] + [NOP] * count

    def image(self):
        return image(self.words)

    def loops(self):
        return "version = 1\n" + "".join(NOTE % (header, header, end, bound) for header, end, bound in sorted(self.notes))


def around(text, words, steps, body, each):
    """A loop over a body that takes so many steps at each turn, up to the end of the text."""
    turns = max(steps // each, 1)
    text.turned(COUNTS[0], turns, turns + turns // 20, body)
    text.words += [NOP] * (words - len(text.words) - len(EXIT)) + EXIT


def mixed(words, steps):
    text = Text()
    loops = min(4000, words // 25)

    def body():
        k = 0
        while len(text.words) < words - 40:
            text.skip(k, 8)
            if k < loops:
                text.turned(COUNTS[1], 1 + k % 4, max(k % 4, 1), lambda: text.words.append(NOP))
            k += 1

    around(text, words, steps, body, loops * 19 + (words - loops * 17) // 11 * 7)
    return text


def nest(words, steps):
    text = Text()
    each = (words - 300) // len(COUNTS)
    # So many of the innermost loops turn twice.
    twice = max((steps // each).bit_length() - 2, 0)

    def level(depth):
        text.words += [NOP] * (each // 2)
        text.skip(depth, 8)
        if depth + 1 < len(COUNTS):
            inner(depth + 1)
        text.words += [NOP] * (each // 2 - 20)

    def inner(depth):
        text.turned(COUNTS[depth], 1 + (depth >= len(COUNTS) - twice), 1, lambda: level(depth))

    inner(0)
    text.words += [NOP] * (words - len(text.words) - len(EXIT)) + EXIT
    return text


def straight(words, steps):
    text = Text()
    around(text, words, steps, lambda: text.words.extend([NOP] * (words - 40)), words - 40)
    return text


def branches(words, steps):
    text = Text()
    body = [branch(0, 5, BITS, 8), immediate(5, 5, 1)] * ((words - 40) // 2)
    around(text, words, steps, lambda: text.words.extend(body), len(body))
    return text


def calls(words, steps):
    text = Text()
    size = 8
    count = (words - 60) // (size + 1)

    def body():
        first = len(text.words)
        leaf = first + count + 8
        for k in range(count):
            text.words.append(jump(1, 4 * (leaf + size * k - (first + k))))

    turns = max(steps // (count * size), 1)
    text.turned(COUNTS[0], turns, turns + turns // 20, body)
    text.words += EXIT + [NOP] * 3
    for k in range(count):
        text.skip(k, 4)
        text.words.append(RETURN)
    text.words += [RETURN] * (words - len(text.words))
    return text


def jumps(words, steps, target):
    """A loop over a text whose every second word is a jump, to a place by the loop's header and its end, which the word before goes past."""
    text = Text()

    def body():
        header = text.at()
        end = header + 4 * (words - 40) + 12
        for _ in range((words - 40) // 2):
            text.words.append(branch(0, 0, 0, 8))
            text.words.append(jump(0, target(header, end) - text.at()))

    around(text, words, steps, body, (words - 40) // 2)
    return text


def exits(words, steps):
    return jumps(words, steps, lambda header, end: end)


def backs(words, steps):
    return jumps(words, steps, lambda header, end: header)


SHAPES = {make.__name__: make for make in (mixed, nest, straight, branches, calls, exits, backs)}


def measured(words):
    """Runs a program: its seconds on the processor, its megabytes at most, its status and what it printed."""
    process = subprocess.Popen(words, stdout=subprocess.PIPE)
    printed = process.stdout.read().decode()
    _, status, usage = os.wait4(process.pid, 0)
    return usage.ru_utime + usage.ru_stime, usage.ru_maxrss / 1024, os.waitstatus_to_exitcode(status), printed


class Files:
    """The files of a shape in a folder."""

    def __init__(self, folder, text, inputs):
        self.folder = folder
        self.files = [self.write("image.elf", text.image()), self.path("machine.toml"), self.write("loops.toml", text.loops().encode())]
        draw = random.Random(29)
        self.inputs = [self.write("input-%d" % k, draw.randbytes(4)) for k in range(inputs)]

    def path(self, name):
        return os.path.join(self.folder, name)

    def write(self, name, content):
        with open(self.path(name), "wb") as file:
            file.write(content)
        return self.path(name)

    def with_deadline(self, deadline):
        text = machine_text("deadline", 28, deadline).replace("steps = 1000000\n", "steps = 1000000000\n")
        self.write("machine.toml", text.encode())


def fitted(tools, shape):
    """Fits an image of a shape. Whether it took too much."""
    with tempfile.TemporaryDirectory() as folder:
        files = Files(folder, SHAPES[shape](tools.words, tools.steps), tools.inputs)
        files.with_deadline(10**18)
        held = subprocess.run([tools.scale, "hold", *files.files, files.path("held.elf")], stdout=subprocess.PIPE).stdout.decode()
        worst = re.search(r"^worst cycles (\d+)", held, re.M)
        if not worst:
            print("%-9s %s" % (shape, held.strip()))
            return True
        files.with_deadline(int(2.5 * int(worst[1])))
        run = subprocess.run([tools.scale, "simulate", files.files[0], files.files[1], files.inputs[0], files.path("out"), files.files[2]], stdout=subprocess.PIPE)
        steps = re.search(r"^steps (\d+)", run.stdout.decode(), re.M)[1]
        took, most, status, printed = measured([tools.pace, "fit", *files.files, files.path("fitted.elf"), *files.inputs])
        energies = {name: int(number) for name, number in re.findall(r"^(energy|hold energy|rewrite energy) (\d+)$", printed, re.M)}
        ratio = energies["energy"] / energies["hold energy"] if energies.get("hold energy") else 1
        over = took > SECONDS or most > MEGABYTES
        print("%-9s %9s steps %7.1f s %6.0f MB   status %d, %.3f of hold's energy%s" % (shape, steps, took, most, status, ratio, "   OVER" if over else ""), flush=True)
        return over or status != 0


def main():
    words = argparse.ArgumentParser()
    words.add_argument("--words", type=int, default=131072)
    words.add_argument("--inputs", type=int, default=16)
    words.add_argument("--steps", type=int, default=10_000_000)
    words.add_argument("--pace", default=os.path.join(TOP, "pace"))
    words.add_argument("--scale", default=os.path.join(TOP, "scale"))
    words.add_argument("shapes", nargs="*", metavar="SHAPE", help=", ".join(SHAPES))
    tools = words.parse_args()
    return any([fitted(tools, shape) for shape in tools.shapes or SHAPES])


if __name__ == "__main__":
    sys.exit(main())

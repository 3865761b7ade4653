#!/usr/bin/env python3
"""Prints how long `pace loops` takes on texts full of loops that count, and how much memory, over 32,768, 65,536 and 131,072 words.

    counted.py [--pace PROGRAM]

Loops of 32 words stand one behind the other in one function, 4,095 of them in the largest text, which is more than are looked at:
- down: each counts a register down to 0, and three registers take turns;
- up: each counts a register up to what another one holds, beside a pointer and a sum;
- words: each counts a word of the stack up, and 48 words take turns, so that all of them are known at each node.

Seconds are those of the processor. The memory should double with the size, but that of words, which has a limit of some 500 MB at each size.
"""

import argparse
import os
import subprocess
import tempfile

from graphs import EXIT, NOP, image
from runs import TOP

STACK = 2


def branch(kind, first, second, offset):
    bits = offset & 0x1FFF
    front = (bits >> 12 & 1) << 31 | (bits >> 5 & 0x3F) << 25 | second << 20 | first << 15
    return front | kind << 12 | (bits >> 1 & 0xF) << 8 | (bits >> 11 & 1) << 7 | 0x63


def plus(to, first, number):
    return (number & 0xFFF) << 20 | first << 15 | to << 7 | 0x13


def add(to, first, second):
    return second << 20 | first << 15 | to << 7 | 0x33


def load(to, offset):
    return (offset & 0xFFF) << 20 | STACK << 15 | 2 << 12 | to << 7 | 0x03


def store(register, offset):
    return (offset >> 5 & 0x7F) << 25 | register << 20 | STACK << 15 | 2 << 12 | (offset & 31) << 7 | 0x23


def down(k):
    """What stands before loop k, its body, and the branch that closes it."""
    register = 5 + k % 3
    return [plus(register, 0, 10 + k % 100)], [NOP] * 28 + [plus(register, register, -1)], (1, register, 0)


def up(k):
    body = [add(7, 7, 5), plus(10, 5, 3), add(11, 7, 10), plus(12, 12, 4), *[NOP] * 22, plus(5, 5, 1)]
    return [plus(5, 0, 0), plus(6, 0, 8 + k % 90)], body, (4, 5, 6)


def words(k):
    at = 8 + 4 * (k % 48)
    body = [load(5, at), plus(6, 5, 0), add(7, 6, 5), *[NOP] * 20]
    body += [load(5, at), plus(5, 5, 1), store(5, at), load(5, at), plus(6, 0, 9 + k % 50)]
    return [store(0, at)], body, (4, 5, 6)


def text(size, loop):
    made = [plus(STACK, STACK, -256)]
    while len(made) + 34 < size:
        before, body, (kind, first, second) = loop((len(made) - 1) // 32)
        looped = [*before, *body, branch(kind, first, second, -4 * len(body))]
        made += looped + [NOP] * (32 - len(looped))
    return made + [NOP] * (size - 2 - len(made)) + EXIT


def run(pace, folder, name, made):
    path = os.path.join(folder, "image.elf")
    with open(path, "wb") as file:
        file.write(image(made))
    process = subprocess.Popen([pace, "loops", path, path + ".toml"], stdout=subprocess.PIPE, text=True)
    said = process.stdout.read().split("\n")
    _, status, used = os.wait4(process.pid, 0)
    took = used.ru_utime + used.ru_stime
    print("%-6s %7d words %8.3f s %5d MB   status %d %s" % (name, len(made), took, used.ru_maxrss // 1024, status >> 8, ", ".join(said[:3])))


def main():
    given = argparse.ArgumentParser(description=__doc__, formatter_class=argparse.RawDescriptionHelpFormatter)
    given.add_argument("--pace", default=f"{TOP}/pace")
    pace = given.parse_args().pace
    with tempfile.TemporaryDirectory() as folder:
        for loop in (down, up, words):
            for size in (32768, 65536, 131072):
                run(pace, folder, loop.__name__, text(size, loop))


if __name__ == "__main__":
    main()

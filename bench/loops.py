#!/usr/bin/env python3
"""Prints how long `scale hold` takes on programs with many loops.

It makes files in a temporary folder and runs the program on each, three times:
- nested: groups of 16 loops, one within the other, over the whole text: 1,024 loops in 32,768 words, 2,048 in 65,536, and
  4,096 in 131,072;
- flat: the same number of loops, one behind the other;
- deep: loops that are all nested, which is refused: 1,024 and 4,096 of them over 131,072 words;
- ranges: 4,096 such loops, each with 16 ranges, of which the last alone has its nodes.

The first two should double with the size. Run it from anywhere; it builds the program first where that isn't built yet.
"""

import os
import tempfile

from graphs import ENTRY, EXIT, NOP, image, jump
from runs import build, hold, write_machine


def branch(offset):
    """`bne x5,x0` over a distance in bytes."""
    bits = offset & 0x1FFF
    return (
        (bits >> 12 & 1) << 31
        | (bits >> 5 & 0x3F) << 25
        | (bits >> 1 & 0xF) << 8
        | (bits >> 11 & 1) << 7
        | 0x00029063
    )


def note(header, end, before=0):
    """The note of a loop, with some ranges before its own that have no node."""
    ranges = "".join("[%d, %d], " % (k, k + 1) for k in range(before)) + "[%d, %d]" % (header, end)
    return "[[loop]]\nheader = %d\nranges = [%s]\nbound = 1\n" % (header, ranges)


def nest(at, size, depth):
    """`depth` loops, one within the other, in `size` words from address `at` on, and their notes, the outermost first."""
    words = [NOP] * (size - depth)
    notes = []
    for k in range(depth):
        place = len(words)
        header = depth - 1 - k
        words.append(branch(4 * (header - place)))
        notes.append(note(at + 4 * header, at + 4 * (place + 1)))
    return words, notes[::-1]


def groups(size, words_each, depth):
    """A loop for each 32 words of the text, in groups of `depth`."""
    text, notes = [], []
    for _ in range(size // 32 // depth):
        words, more = nest(ENTRY + 4 * len(text), words_each, depth)
        text += words
        notes += more
    return text + [NOP] * (size - 2 - len(text)) + EXIT, notes


def deep(size, depth, before=0):
    # The back edges are jumps, since a branch doesn't reach so far: a branch steps over each.
    body = size - 2 - 2 * depth
    text, notes = [NOP] * body, []
    for k in range(depth):
        text.append(branch(8))
        place = len(text)
        header = depth - 1 - k
        text.append(jump(0, 4 * (header - place)))
        notes.append(note(ENTRY + 4 * header, ENTRY + 4 * (place + 1), before))
    return text + EXIT, notes[::-1]


def run(folder, name, made):
    text, notes = made
    loops = os.path.join(folder, "loops.toml")
    with open(loops, "w") as file:
        file.write("version = 1\n" + "".join(notes))
    took, status, lines = hold(folder, image(text), os.path.join(folder, "machine.toml"), loops)
    told = lines[1] if status == 0 else lines[0][:40] if lines else ""
    print("%-7s %7d words %5d loops %8.3f s   status %d %s" % (name, len(text), len(notes), took, status, told))


def main():
    build()
    with tempfile.TemporaryDirectory() as folder:
        write_machine(folder)
        for size in [32768, 65536, 131072]:
            run(folder, "nested", groups(size, 511, 16))
        for size in [32768, 65536, 131072]:
            run(folder, "flat", groups(size, 31, 1))
        for depth in [1024, 4096]:
            run(folder, "deep", deep(131072, depth))
        run(folder, "ranges", deep(131072, 4096, 15))


if __name__ == "__main__":
    main()

#!/usr/bin/env python3
"""Prints how long `scale rewrite` takes on large programs, and how much memory, in the greatest of all runs so far.

It makes files in a temporary folder and runs the program on each, three times:
- branches: a branch over the next word in every fourth word, of 32,768, 65,536 and 131,072 words; none has enough slack for a switch;
- switches: the same, where each has one, so that the block is out of reach from some size on, which is refused;
- nested: groups of 16 loops, one within the other, over the whole text: 1,024 loops in 32,768 words, 2,048 in 65,536, and 4,096 in
  131,072;
- turning: the same loops, each of which turns at least once before it is left.

The times should double with the size. Run it from anywhere; it builds the program first where that isn't built yet.
"""

import os
import resource
import tempfile

from graphs import EXIT, NOP, SIZES, image
from loops import groups
from runs import build, machine_text, store


def branches(size):
    # beq x5,x6,+8
    return [0x00628463, NOP, NOP, NOP] * (size // 4 - 1) + [NOP, NOP] + EXIT


def run(folder, name, machine, text, notes=(), version=1):
    loops = os.path.join(folder, "loops.toml")
    with open(loops, "w") as file:
        file.write("version = %d\n" % version + "".join(notes))
    took, status, lines = store("rewrite", folder, image(text), os.path.join(folder, machine), loops)
    told = "%s, %s" % (lines[1], lines[4]) if status == 0 else lines[0][:50] if lines else ""
    memory = resource.getrusage(resource.RUSAGE_CHILDREN).ru_maxrss // 1024
    print("%-9s %7d words %5d loops %8.3f s %5d MB   status %d %s" % (name, len(text), len(notes), took, memory, status, told))


def main():
    build()
    with tempfile.TemporaryDirectory() as folder:
        machine = machine_text("deadline", 28, 4000000000000000000)
        for name, gain in [("strict.toml", 20), ("eager.toml", 0)]:
            with open(os.path.join(folder, name), "w") as file:
                file.write(machine.replace("min_gain = 20", "min_gain = %d" % gain))
        for size in SIZES:
            run(folder, "branches", "strict.toml", branches(size))
        for size in SIZES:
            run(folder, "switches", "eager.toml", branches(size))
        for size in SIZES:
            run(folder, "nested", "strict.toml", *groups(size, 511, 16))
        for size in SIZES:
            text, notes = groups(size, 511, 16)
            run(folder, "turning", "strict.toml", text, [note + "at_least = 1\n" for note in notes], 2)


if __name__ == "__main__":
    main()

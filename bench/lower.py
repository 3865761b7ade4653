#!/usr/bin/env python3
"""Prints how long `scale lower` takes on large images and jump files, and how much memory, in the greatest of all runs so far.

It makes files in a temporary folder and runs the program on each, three times:
- listed: 50, 100 and 200 jumps through registers, each of which may lead to 128 places, whose trees nearly fill a text; and 1,024 of them, as
  many as there may be, whose trees are out of reach, which is refused;
- far: a far call in every two words, of 32,768, 65,536 and 131,072 words.

The largest jump file should take at most 1 second; the times should double with the size. Run it from anywhere; it builds the program
first where that isn't built yet.
"""

import os
import resource
import tempfile

from graphs import ENTRY, EXIT, NOP, SIZES, image
from runs import build, store

TARGETS = 128
# jalr x0,0(x5)
TABLE_JUMP = 0x00028067
# auipc x1,0; jalr x1,8(x1)
FAR_CALL = [0x00000097, 0x008080E7]
LIMIT = 1.0


def listed(count):
    """So many jumps, with words behind them to which they may lead."""
    text = [TABLE_JUMP] * count + [NOP] * (TARGETS + count) + EXIT
    notes = []
    for k in range(count):
        places = ["%d" % (ENTRY + 4 * (count + k + place)) for place in range(TARGETS)]
        notes.append("[[jump]]\nat=%d\ntargets=[%s]\n" % (ENTRY + 4 * k, ",".join(places)))
    return text, notes


def far(size):
    return FAR_CALL * ((size - 2) // 2) + EXIT, []


def run(folder, name, made):
    text, notes = made
    jumps = os.path.join(folder, "jumps.toml")
    with open(jumps, "w") as file:
        file.write("version = 1\n" + "".join(notes))
    took, status, lines = store("lower", folder, image(text), jumps)
    told = ", ".join(lines) if status == 0 else lines[0][:50] if lines else ""
    memory = resource.getrusage(resource.RUSAGE_CHILDREN).ru_maxrss // 1024
    said = "" if len(notes) < 1024 else "   within %.1f s" % LIMIT if took <= LIMIT else "   OVER %.1f s" % LIMIT
    size = os.path.getsize(jumps)
    print("%-6s %7d words %7d bytes of jumps %8.3f s %5d MB   status %d %s%s" % (name, len(text), size, took, memory, status, told, said))


def main():
    build()
    with tempfile.TemporaryDirectory() as folder:
        for count in [50, 100, 200, 1024]:
            run(folder, "listed", listed(count))
        for size in SIZES:
            run(folder, "far", far(size))


if __name__ == "__main__":
    main()

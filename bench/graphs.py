#!/usr/bin/env python3
"""Prints how long `scale hold` takes on programs with large control-flow graphs.

It makes files in a temporary folder and runs the program on each, three times:
- straight: a text without a branch, of 32,768, 65,536 and 131,072 words;
- branches: a branch over the next word in every second word, of the same sizes;
- calls: functions that call each the next one, and each a leaf of its own, of the same sizes;
- unbounded: one cycle through the whole text, which is refused.

The times should double with the size. Run it from anywhere; it builds the program first where that isn't built yet.
"""

import os
import struct
import sys
import tempfile

from runs import build, hold, write_machine

ENTRY = 0x00010000
NOP = 0x00000013
EXIT = [0x05D00893, 0x00000073]
RETURN = 0x00008067
SIZES = [32768, 65536, 131072]


def jump(link, offset):
    bits = offset & 0x1FFFFF
    return (
        (bits >> 20 & 1) << 31
        | (bits >> 1 & 0x3FF) << 21
        | (bits >> 11 & 1) << 20
        | (bits >> 12 & 0xFF) << 12
        | link << 7
        | 0x6F
    )


def straight(size):
    return [NOP] * (size - 2) + EXIT


def branches(size):
    # beq x5,x6,+8
    return [0x00628463, NOP] * (size // 2 - 1) + EXIT


def calls(size):
    # A function is a call of the next one, a call of a leaf, a return, and the leaf's return.
    count = (size - 4) // 4
    text = [jump(1, 16)] + EXIT + [NOP]
    for _ in range(count - 1):
        text += [jump(1, 16), jump(1, 8), RETURN, RETURN]
    return text + [NOP, NOP, NOP, RETURN]


def unbounded(size):
    # The far end jumps back in steps that a jump can reach.
    text = [NOP] * size
    text[size - 1] = jump(0, -4 * (size - 1))
    return text


def image(text):
    ident = b"\x7fELF\x01\x01\x01" + bytes(9)
    front = ident + struct.pack("<HHIIIIIHHHHHH", 2, 243, 1, ENTRY, 52, 0, 0, 52, 32, 1, 0, 0, 0)
    front += struct.pack("<8I", 1, 84, ENTRY, ENTRY, 4 * len(text), 4 * len(text), 5, 4)
    return front + struct.pack("<%dI" % len(text), *text)


def run(folder, name, text):
    took, status, lines = hold(folder, image(text), os.path.join(folder, "machine.toml"))
    told = lines[1] if status == 0 else lines[0][:40] if lines else ""
    print("%-10s %7d words %8.3f s   status %d %s" % (name, len(text), took, status, told))


def main():
    build()
    with tempfile.TemporaryDirectory() as folder:
        write_machine(folder)
        for make in [straight, branches, calls, unbounded]:
            for size in SIZES:
                run(folder, make.__name__, make(size))


if __name__ == "__main__":
    sys.exit(main())

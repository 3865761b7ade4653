#!/usr/bin/env python3
"""Prints how long `scale hold` takes where the addresses of a loop file are names of symbols.

It makes files in a temporary folder and runs the program on each, three times. The program is 4,096 loops, one behind the other,
over 131,072 words, with 65,536 symbols, and each loop is noted with 16 ranges, of which the last alone has its nodes: 135,168
addresses.
- numbers: the addresses are numbers;
- names: they are names of one or two letters, of the last symbols of the table;
- no such name: the last of them is missing, which is refused;
- one string: the names of all other symbols are the ends of one string of 2.4 MB of the letter a.

The second should take less than 0.5 s more than the first. Run it from anywhere; it builds the program first where that isn't built
yet.
"""

import os
import struct
import tempfile

from graphs import ENTRY, EXIT, NOP
from loops import branch
from runs import build, hold, write_machine

LOOPS = 4096
WORDS = 131072
SYMBOLS = 65536
LETTERS = [chr(c) for c in range(33, 127) if chr(c) not in '"\\+']


def short_names():
    return LETTERS + [a + b for a in LETTERS for b in LETTERS]


def program():
    """The text, and the header and the end of each loop."""
    each = WORDS // LOOPS
    text, ends = [], []
    for _ in range(LOOPS):
        at = ENTRY + 4 * len(text)
        # A loop over all but one word of its share.
        text += [NOP] * (each - 3) + [branch(-4 * (each - 3)), NOP, NOP]
        ends.append((at, at + 4 * (each - 2)))
    return text[: WORDS - 2] + EXIT, ends


def section(kind, flags, address, offset, size, link):
    return struct.pack("<10I", 0, kind, flags, address, offset, size, link, 0, 0, 0)


def image(text, strings, symbols):
    """An image with one section of text and a symbol table: of each symbol the place of its name and its value."""
    size = 4 * len(text)
    table = bytes(16) + b"".join(struct.pack("<IIIBBH", name, value, 0, 0, 0, 1) for name, value in symbols)
    at = 84 + size
    ident = b"\x7fELF\x01\x01\x01" + bytes(9)
    front = ident + struct.pack("<HHIIIIIHHHHHH", 2, 243, 1, ENTRY, 52, at + len(table) + len(strings), 0, 52, 32, 1, 40, 4, 0)
    front += struct.pack("<8I", 1, 84, ENTRY, ENTRY, size, size, 5, 4)
    sections = section(0, 0, 0, 0, 0, 0) + section(1, 6, ENTRY, 84, size, 0)
    sections += section(2, 0, 0, at, len(table), 3) + section(3, 0, 0, at + len(table), len(strings), 0)
    return front + struct.pack("<%dI" % len(text), *text) + table + strings + sections


def symbols_of(named, others):
    """The string table and the symbols: the others, and then those that are named, of which each has a value."""
    strings, symbols = others
    strings, symbols = bytearray(strings), symbols[: SYMBOLS - len(named)]
    for name, value in named.items():
        symbols.append((len(strings), value))
        strings += name.encode() + b"\0"
    return bytes(strings), symbols


def long_names():
    strings, symbols = bytearray(b"\0"), []
    for k in range(SYMBOLS):
        symbols.append((len(strings), 0))
        strings += b"symbol_%d\0" % k
    return strings, symbols


def one_string():
    return b"\0" + b"a" * 2_400_000 + b"\0", [(1 + k, 0) for k in range(SYMBOLS)]


def notes(ends, write):
    """The loop file, where each address is written by `write`."""
    lines = ["version = 1"]
    for header, end in ends:
        ranges = [(k, k + 1) for k in range(15)] + [(header, end)]
        listed = ",".join("[%s,%s]" % (write(a), write(b)) for a, b in ranges)
        lines.append("[[loop]]\nheader=%s\nranges=[%s]\nbound=1" % (write(header), listed))
    text = "\n".join(lines) + "\n"
    assert len(text) <= 1_048_576
    return text


def run(folder, what, file, text):
    loops = os.path.join(folder, "loops.toml")
    with open(loops, "w") as out:
        out.write(text)
    took, status, lines = hold(folder, file, os.path.join(folder, "machine.toml"), loops)
    print("%-12s %8d bytes of image %8d of loops %8.3f s   status %d %s" % (what, len(file), len(text), took, status, lines[:2]))


def main():
    build()
    with tempfile.TemporaryDirectory() as folder:
        write_machine(folder)
        text, ends = program()
        values = list(range(16)) + [address for pair in ends for address in pair]
        name_of = dict(zip(values, short_names()))
        named = {name: value for value, name in name_of.items()}
        file = image(text, *symbols_of(named, long_names()))
        names = notes(ends, lambda value: '"%s"' % name_of[value])
        run(folder, "numbers", file, notes(ends, str))
        run(folder, "names", file, names)
        missing = names[: names.rindex('"', 0, names.rindex('"]]')) + 1] + '~~~"]]\nbound=1\n'
        run(folder, "no such name", file, missing)
        run(folder, "one string", image(text, *symbols_of(named, one_string())), names)


if __name__ == "__main__":
    main()

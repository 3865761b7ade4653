#!/usr/bin/env python3
"""Prints how long `scale hold` takes on the largest images that it reads.

It makes three files in a temporary folder and runs the program on each, three times:
- largest text: one segment of 131,072 words;
- many sections: 63 program headers, 16 of them loaded, and 65,535 section headers, each a text range, in ascending order;
- many sections, descending: the same with the table of sections in descending order.

Run it from anywhere; it builds the program first where that isn't built yet.
"""

import os
import struct
import sys
import tempfile

from runs import DATA, build, hold

EXIT_SEVEN = [0x00700513, 0x05D00893, 0x00000073]
NOP = 0x00000013
ENTRY = 0x00010000


def header(phnum, shoff, shnum, phoff=52):
    ident = b"\x7fELF\x01\x01\x01" + bytes(9)
    return ident + struct.pack(
        "<HHIIIIIHHHHHH", 2, 243, 1, ENTRY, phoff, shoff, 0, 52, 32, phnum, 40, shnum, 0
    )


def load(offset, address, in_file, in_memory, flags):
    return struct.pack("<8I", 1, offset, address, address, in_file, in_memory, flags, 4)


def words(count):
    return struct.pack("<%dI" % count, *(EXIT_SEVEN + [NOP] * (count - 3)))


def largest_text():
    text = words(131072)
    return header(1, 0, 0) + load(84, ENTRY, len(text), len(text), 5) + text


def many_sections(descending):
    count = 65535
    text = words(count + 2)
    headers = 63
    at = 52 + 32 * headers
    at += -at % 4
    table = at + len(text)
    sections = [struct.pack("<10I", 0, 1, 6, ENTRY, at, 12, 0, 0, 4, 0)]
    for k in range(1, count):
        place = 4 * (k + 2)
        sections.append(struct.pack("<10I", 0, 1, 6, ENTRY + place, at + place, 4, 0, 0, 4, 0))
    if descending:
        sections.reverse()
    segments = [load(at, ENTRY, len(text), len(text), 5)]
    for k in range(15):
        segments.append(load(at, 0x01000000 + 0x1000 * k, 0, 0x1000, 6))
    segments += [bytes(32)] * (headers - len(segments))
    front = header(headers, table, count) + b"".join(segments)
    return front + bytes(at - len(front)) + text + b"".join(sections)


def run(folder, name, image):
    took, status, lines = hold(folder, image, os.path.join(DATA, "m.toml"))
    print("%-28s %9d bytes %8.3f s   status %d %s" % (name, len(image), took, status, lines[:1]))


def main():
    build()
    with tempfile.TemporaryDirectory() as folder:
        run(folder, "largest text", largest_text())
        run(folder, "many sections", many_sections(False))
        run(folder, "many sections, descending", many_sections(True))


if __name__ == "__main__":
    sys.exit(main())

#!/usr/bin/env python3
"""Prints how long `scale check` takes on large images of other make, and how much memory, in the greatest of all runs so far.

It makes files in a temporary folder and runs the program on each, three times. First a branch over the next word in every fourth word, of
32,768, 65,536 and 131,072 words, each of which is patched to a stub that only goes the branch's ways:
- safe: a yes;
- last byte: a byte of the last stub is another one, so that the first cause is found at the end.

Then 500 loops, one behind the other, which many branches leave, and all of these exits share one table of levels:
- exits: 50,000 and 100,000 exits, with 390,000 and with 780,000 rows. Each is a yes.

The largest of each kind should take at most 2 seconds. The times of the first kind should double with the size; those of the second should
grow with the exits and the rows by themselves, and not with their product. Run it from anywhere; it builds the program first where that
isn't built yet.
"""

import os
import resource
import struct
import tempfile

from graphs import ENTRY, EXIT, SIZES, image, jump
from rewrite import branches
from runs import DATA, best_of, build, write_machine

# The flags of the keyed segment; its p_paddr is the starting level.
KEYED = 0x00100005
LIMIT = 2.0
# How many loops the exits leave, and the row in which each level stays as it is.
LOOPS = 500
STAY = 0x76543210
EXITS = [(50000, 390000), (100000, 390000), (50000, 780000), (100000, 780000)]
# The two registers of a fragment, and the word of the window that is the speed port.
T0, T1, PORT = 5, 6, 511


def branch(offset):
    """beq x5,x6"""
    bits = offset & 0x1FFF
    return (bits >> 12) << 31 | (bits >> 5 & 0x3F) << 25 | 0x00628063 | (bits >> 1 & 0xF) << 8 | (bits >> 11 & 1) << 7


def patched(text):
    """The text with a jump to a stub in place of each branch, the stubs, which hold the branch, the way on, and the way of the taken branch, and
    where they begin."""
    base = (ENTRY + 4 * len(text) + 4095) // 4096 * 4096
    words, stubs = list(text), []
    for k in range(0, len(text) - 4, 4):
        at, stub = ENTRY + 4 * k, base + 4 * len(stubs)
        words[k] = jump(0, stub - at)
        stubs += [branch(8), jump(0, at + 4 - (stub + 4)), jump(0, at + 8 - (stub + 8))]
    return words, stubs, base


def number(value, base, minor, to, major):
    """An instruction with a number of 12 bits."""
    return (value & 0xFFF) << 20 | base << 15 | minor << 12 | to << 7 | major


def load(to, k):
    """lw of word k of the window"""
    return number(4 * k - 2048, 0, 2, to, 0x03)


def store(of, k):
    """sw to word k of the window"""
    value = 4 * k - 2048 & 0xFFF
    return value >> 5 << 25 | of << 20 | 2 << 12 | (value & 31) << 7 | 0x23


def exit_code(counter, table):
    """The fragment of an exit whose rows aren't shared by counts."""
    high = (table + 0x800) % 2**32 >> 12
    return [
        *(store(T0, 0), store(T1, 1), load(T0, counter), number(0, T0, 5, T0, 0x13), number(2, T0, 1, T0, 0x13)),
        *(high << 12 | T1 << 7 | 0x37, T1 << 20 | T0 << 15 | T0 << 7 | 0x33, number(table, T0, 2, T1, 0x03)),
        *(load(T0, PORT), number(2, T0, 1, T0, 0x13), T0 << 20 | T1 << 15 | 5 << 12 | T1 << 7 | 0x33),
        *(number(15, T1, 7, T1, 0x13), store(0, counter), store(T1, PORT), load(T1, 1), load(T0, 0)),
    ]


def count_code(counter):
    return [store(T0, 0), load(T0, counter), number(1, T0, 0, T0, 0x13), store(T0, counter), load(T0, 0)]


def leaving(exits):
    """Loops of branches, which leave them, and of a jump back."""
    each = exits // LOOPS
    return [word for _ in range(LOOPS) for word in [*(branch(4 * (each + 1 - k)) for k in range(each)), jump(0, -4 * each)]] + EXIT


def with_table(text, rows):
    """That text with a jump to a stub in place of each branch and each jump, the stubs with the table behind them, and where the stubs begin. Those
    of a loop are a fork for each branch, the one run-out of them all, and that of the jump back."""
    each = (len(text) - 2) // LOOPS - 1
    base = (ENTRY + 4 * len(text) + 4095) // 4096 * 4096
    size = 2 * each + 16 + 1 + 5 + 1
    table = base + 4 * size * LOOPS
    words, stubs = list(text), []

    def add(*code, to=None):
        stubs.extend(code)
        if to is not None:
            stubs.append(jump(0, to - base - 4 * len(stubs)))

    for loop in range(LOOPS):
        header, first = loop * (each + 1), loop * size
        for k in range(header, header + each):
            words[k] = jump(0, base + 4 * len(stubs) - ENTRY - 4 * k)
            add(branch(4 * (first + 2 * each - len(stubs))), to=ENTRY + 4 * k + 4)
        add(*exit_code(loop + 2, table), to=ENTRY + 4 * (header + each + 1))
        words[header + each] = jump(0, base + 4 * len(stubs) - ENTRY - 4 * (header + each))
        add(*count_code(loop + 2), to=ENTRY + 4 * header)
    return words, stubs + [STAY] * rows, base


def loop_notes(text, bound):
    each = (len(text) - 2) // LOOPS
    starts = [ENTRY + 4 * each * loop for loop in range(LOOPS)]
    note = "[[loop]]\nheader = %d\nranges = [[%d, %d]]\nbound = %d\n"
    return "version = 1\n" + "".join(note % (start, start, start + 4 * each, bound) for start in starts)


def foreign(words, stubs, base):
    """The image with stubs: a text behind two program headers, and the keyed segment, which starts it at level 0."""
    place = (116 + 4 * len(words) + 4095) // 4096 * 4096
    ident = b"\x7fELF\x01\x01\x01" + bytes(9)
    front = ident + struct.pack("<HHIIIIIHHHHHH", 2, 243, 1, ENTRY, 52, 0, 0, 52, 32, 2, 0, 0, 0)
    front += struct.pack("<8I", 1, 116, ENTRY, ENTRY, 4 * len(words), 4 * len(words), 5, 4)
    front += struct.pack("<8I", 1, place, base, 0, 4 * len(stubs), 4 * len(stubs), KEYED, 4096)
    block = struct.pack("<%dI" % len(stubs), *stubs)
    return (front + struct.pack("<%dI" % len(words), *words)).ljust(place, b"\0") + block


def run(folder, name, text, file, told, notes, is_largest):
    paths = [os.path.join(folder, part) for part in ("image.elf", "foreign.elf", "loops.toml")]
    for path, content in zip(paths, (image(text), file, notes.encode())):
        with open(path, "wb") as out:
            out.write(content)
    took, status, lines = best_of(["check", *paths[:2], os.path.join(folder, "machine.toml"), paths[2]])
    memory = resource.getrusage(resource.RUSAGE_CHILDREN).ru_maxrss // 1024
    said = "" if not is_largest else "   within %.1f s" % LIMIT if took <= LIMIT else "   OVER %.1f s" % LIMIT
    print("%-9s %7d words %s %8.3f s %5d MB   status %d %s%s" % (name, len(text), told, took, memory, status, ", ".join(lines[:3]), said))


def main():
    build()
    with open(os.path.join(DATA, "loops.toml")) as file:
        no_loops = file.read()
    with tempfile.TemporaryDirectory() as folder:
        write_machine(folder)
        for size in SIZES:
            text = branches(size)
            file, told = foreign(*patched(text)), "%6d stubs" % (size // 4 - 1)
            run(folder, "safe", text, file, told, no_loops, size == SIZES[-1])
            run(folder, "last byte", text, file[:-1] + bytes([file[-1] ^ 0x80]), told, no_loops, size == SIZES[-1])
        for exits, rows in EXITS:
            text = leaving(exits)
            file, told = foreign(*with_table(text, rows)), "%6d exits %6d rows" % (exits, rows)
            run(folder, "exits", text, file, told, loop_notes(text, rows - 1), (exits, rows) == EXITS[-1])


if __name__ == "__main__":
    main()

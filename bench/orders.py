#!/usr/bin/env python3
"""Prints how long `scale hold`, `rewrite`, `report` and `check` of what `rewrite` stored take on code that is laid out in different orders.

    orders.py [PROGRAM]   with this program in place of the one that `./scale` builds

It makes files in a temporary folder and runs the program on each, three times. All have 131,072 words:
- straight: no jump; and forward: each word jumps to the next;
- backward: each word jumps to the one before it, from the last, to which the first jumps; random: the jumps lead through the text in a random order;
- calls: each function calls the next and returns; calls back: the one before it; calls random: one after the other in a random order;
- one place: each second word is a branch over a jump to the end; one callee: all words call one function; one header: the jumps lead back, to the
  header of one loop;
- flat: 4,096 loops one after the other, nested: the same in groups of 16, and deep: 16 loops round all other words;
- deep back and deep random: deep, where the words between the headers and the back edges are jumps as in backward and random; turning: deep
  back, where each loop turns at least once.

A time should be at most 5 times that of straight code, or of the forward jumps, but for deep random: each pass over loops takes the sum of their
bodies, here 16 times the words, and in a random order the processor's caches don't help. Works on any folder; it builds the program first where that
isn't built yet.
"""

import os
import random
import subprocess
import sys
import tempfile
import time

from graphs import ENTRY, EXIT, NOP, RETURN, image, jump
from loops import branch, groups, note
from runs import PROGRAM, build, write_machine

SIZE = 131072
DEPTH = 16
FACTOR = 5
# Whose times have no limit.
FREE = ("deep random",)
# Seconds that a command may take.
LONGEST = 30
# beq x5,x6,+8
SKIP = 0x00628463


def visiting(places, first, last):
    """Jumps that lead from `first` through these places to `last`, by place."""
    way = [first, *places, last]
    return {at: jump(0, 4 * (to - at)) for at, to in zip(way, way[1:])}


def orders(low, high):
    """The places from `low` on and below `high`, in three orders."""
    places = list(range(low, high))
    mixed = places[:]
    random.Random(1).shuffle(mixed)
    return {"forward": places, "backward": places[::-1], "random": mixed}


def straight():
    return [NOP] * (SIZE - 2) + EXIT, []


def laid_out(order):
    """The first word jumps through the others in an order."""
    end = SIZE - 2
    words = visiting(orders(1, end)[order], 0, end)
    return [words[at] for at in range(end)] + EXIT, []


def calls(order):
    """Functions of two words, of which each calls the next in an order."""
    count = SIZE // 2 - 2
    way = orders(0, count)[order]
    text = [jump(1, 4 * (4 + 2 * way[0]))] + EXIT + [NOP]
    text += [NOP, RETURN] * count
    for one, other in zip(way, way[1:]):
        text[4 + 2 * one] = jump(1, 8 * (other - one))
    return text, []


def one_place():
    text = [NOP] * (SIZE - 2) + EXIT
    for at in range(0, SIZE - 2, 2):
        text[at : at + 2] = [SKIP, jump(0, 4 * (SIZE - 2 - (at + 1)))]
    return text, []


def one_callee():
    return [jump(1, 4 * (SIZE - 1 - at)) for at in range(SIZE - 3)] + EXIT + [RETURN], []


def one_header():
    text = [NOP] * (SIZE - 2) + EXIT
    for at in range(2, SIZE - 2, 2):
        text[at : at + 2] = [SKIP, jump(0, -4 * (at + 1))]
    return text, [note(ENTRY, ENTRY + 4 * (SIZE - 2))]


def deep(order):
    """Loops round all words: their headers, the jumps between, and of each a branch over its back edge."""
    last = SIZE - 2 - 2 * DEPTH
    text, notes = [NOP] * SIZE, []
    if order:
        for at, word in visiting(orders(DEPTH + 1, last)[order], DEPTH, last).items():
            text[at] = word
    for k in range(DEPTH):
        at, header = last + 2 * k, DEPTH - 1 - k
        text[at : at + 2] = [branch(8), jump(0, 4 * (header - (at + 1)))]
        notes.append(note(ENTRY + 4 * header, ENTRY + 4 * (at + 2)))
    text[-2:] = EXIT
    return text, notes[::-1]


def turning():
    text, notes = deep("backward")
    return text, [one + "at_least = 1\n" for one in notes]


CASES = {
    "straight": straight,
    "forward": lambda: laid_out("forward"),
    "backward": lambda: laid_out("backward"),
    "random": lambda: laid_out("random"),
    "calls": lambda: calls("forward"),
    "calls back": lambda: calls("backward"),
    "calls random": lambda: calls("random"),
    "one place": one_place,
    "one callee": one_callee,
    "one header": one_header,
    "flat": lambda: groups(SIZE, 31, 1),
    "nested": lambda: groups(SIZE, 511, DEPTH),
    "deep": lambda: deep(None),
    "deep back": lambda: deep("backward"),
    "deep random": lambda: deep("random"),
    "turning": turning,
}


def timed(program, words):
    """The best time of three runs, or one where that takes long, and the status."""
    best = None
    for _ in range(3):
        begin = time.perf_counter()
        try:
            status = subprocess.run([program, *words], capture_output=True, timeout=LONGEST).returncode
        except subprocess.TimeoutExpired:
            return LONGEST, None
        took = time.perf_counter() - begin
        best = took if best is None else min(best, took)
        if took > LONGEST / 10:
            break
    return best, status


def measure(program, folder, made):
    """The times of the four commands and their statuses."""
    text, notes = made
    assert len(text) == SIZE
    path = {name: os.path.join(folder, name) for name in ["image", "machine.toml", "loops", "held", "stored"]}
    with open(path["image"], "wb") as file:
        file.write(image(text))
    with open(path["loops"], "w") as file:
        file.write("version = 2\n" + "".join(notes))
    given = [path["image"], path["machine.toml"], path["loops"]]
    return [
        timed(program, ["hold", *given, path["held"]]),
        timed(program, ["rewrite", *given, path["stored"]]),
        timed(program, ["report", *given]),
        timed(program, ["check", path["image"], path["stored"], *given[1:]]),
    ]


def main():
    program = sys.argv[1] if len(sys.argv) > 1 else PROGRAM
    if program == PROGRAM:
        build()
    base = [0.0] * 4
    print("%-12s %9s %9s %9s %9s" % ("", "hold", "rewrite", "report", "check"))
    with tempfile.TemporaryDirectory() as folder:
        write_machine(folder)
        for name, make in CASES.items():
            found = measure(program, folder, make())
            if name in ("straight", "forward"):
                base = [max(one, took) for one, (took, _) in zip(base, found)]
            over = [took / one for one, (took, _) in zip(base, found)]
            said = "%.1f times" % max(over)
            if name not in FREE:
                said += ", within %d" % FACTOR if max(over) <= FACTOR else ", OVER %d" % FACTOR
            statuses = "".join("-" if status is None else str(status) for _, status in found)
            print("%-12s " % name + " ".join("%7.3f s" % took for took, _ in found) + "   status %s   %s" % (statuses, said), flush=True)


if __name__ == "__main__":
    main()

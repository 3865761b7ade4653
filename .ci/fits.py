#!/usr/bin/env python3
"""Runs the program `pace` itself on made programs, and checks what comes of it. `commands.py` runs it on command lines.

    fits.py SCALE PACE ..   these builds of `pace`, with a build of `scale` beside them

A draft that is whole is taken by `scale hold`. Of a large program the functions are drawn alone. An image in which a loop is there twice runs as the program itself,
on inputs by which the loop turns seldom and often. Made programs: what `bench/fit.py` checks of each run, at three
deadlines, with inputs and without; and their drafts, filled in, keep what their own loop files say. What is wrong is told, and the status is then 1.
"""

import os
import re
import subprocess
import sys
import tempfile
import tomllib

TOP = os.path.dirname(os.path.dirname(os.path.abspath(__file__)))
sys.path.insert(0, os.path.join(TOP, "bench"))

import cases  # noqa: E402
import fit  # noqa: E402

PROGRAMS, SIZE = (2001, 2002, 2003), 40
OWN = os.path.join(TOP, "crates", "pace_tool", "data")


def run(program, folder, *words, output=subprocess.PIPE):
    return subprocess.run([program, *words], cwd=folder, stdout=output, stderr=subprocess.PIPE, timeout=60)


def read(*names):
    with open(os.path.join(*names), "rb") as file:
        return file.read()


def check_taken(scale, folder):
    """What is wrong of a whole draft that `scale hold` is given; the command lines of `pace` say which draft that is."""
    held = run(scale, folder, "hold", *(os.path.join(OWN, name) for name in ("count.elf", "count-machine.toml", "count-draft.toml")), "held")
    if held.returncode != 0 or b"\nworst cycles 36\nworst time 144 of 156\n" not in held.stdout:
        yield "scale hold count.elf with its draft: status %d, %r" % (held.returncode, held.stdout)


# What the picture of a made program has that is so large that its functions are drawn alone.
LARGE = 7, 2000
ALONE = [
    b'subgraph cluster_f0 { style="filled,rounded" fillcolor="#f6f8fa" color="#d0d7de" f0 [label="0x00010000\\lworst ',
    b'cycles, called 1x\\l"] }\n',
    b"f0 -> f",
]


def check_large(scale, pace, folder):
    """What is wrong of the picture of a large program."""
    run(scale, folder, "make", *map(str, LARGE), "large")
    done = run(pace, folder, "draw", "plan", "large.elf", "large.machine", "large.loops", "large.dot")
    if done.returncode != 0 or any(part not in read(folder, "large.dot") for part in ALONE):
        yield "pace draw plan of a large program: status %d, %r" % (done.returncode, done.stderr)


# Of which programs of the cases a loop is there twice, by which deadline, and the words by which it is: with a draft of its loops, and with a loop file that is
# written by hand.
VERSIONED = [
    ("divide-each", 5400, ["all", "p.elf", "m", "out", "ten", "forty"]),
    ("divide-and-step", 3600, ["fit", "p.elf", "m", "loops", "out", "ten", "forty", "--versions"]),
]


def versioned(pace, folder, image, deadline, words):
    """What is printed for a program of the cases, whose files stand in the folder then."""
    read_in = cases.read_all(os.path.join(TOP, "crates", "pace_tool", "cases"), "pace")[2]
    shelf = next(reader.shelf for reader in read_in if os.path.basename(reader.path) == "versions.txt")
    for name, phrase in (("p.elf", image), ("m", f"m-{deadline}"), ("loops", "hand-loops"), ("ten", "ten"), ("forty", "forty")):
        with open(os.path.join(folder, name), "wb") as file:
            file.write(shelf.file(phrase))
    return run(pace, folder, *words)


def check_versions(scale, pace, folder, image, deadline, words):
    """What is wrong of the runs of an image in which a loop is there twice, on inputs of each length."""
    done = versioned(pace, folder, image, deadline, words)
    if done.returncode != 0 or not re.search(b"^version 0x", done.stdout, re.M):
        yield "pace %s: status %d, %r" % (" ".join(words), done.returncode, done.stdout)
        return
    for length in range(41):
        with open(os.path.join(folder, "input"), "wb") as file:
            file.write(bytes(length))
        runs = [(*fit.run(scale, "simulate", *(os.path.join(folder, name) for name in (stored, "m", "input", "report"))), read(folder, "report")) for stored in ("p.elf", "out")]
        # The cycles of a versioned image are its own run's, with those of the guard.
        yield from ("versions of %s, %d bytes: %s" % (image, length, what) for what in fit.breaches(done.stdout.decode(), deadline, *runs) if what != "too many cycles")


class Tools:
    def __init__(self, scale, pace):
        self.scale, self.pace = scale, pace


def bounds_in(file):
    """The bounds of a loop file by headers; of a loop that is open, None."""
    return {loop["header"]: loop.get("bound") for loop in tomllib.loads(file.decode()).get("loop", ())}


def check_made_draft(program):
    """What is wrong of the draft of a made program: it has the loops of the program's own loop file, with bounds that are no smaller, and is taken once it is filled in."""
    fit.run(program.tools.pace, "loops", program.path("p.elf"), program.path("drafted"))
    drafted, own = read(program.path("drafted")), bounds_in(read(program.path("p.loops")))
    found = bounds_in(drafted)
    if sorted(found) != sorted(own):
        yield "%s: other loops are drafted than %s" % (program.name, sorted(own))
    elif any(bound is not None and bound < own[header] for header, bound in found.items()):
        yield "%s: a drafted bound is too small: %s, and not %s" % (program.name, found, own)
    with open(program.path("drafted"), "wb") as file:
        file.write(re.sub(b"^# no bound: .*", b"bound = 1", drafted, flags=re.M))
    status, text = fit.run(program.tools.scale, "hold", program.path("p.elf"), program.path("m"), program.path("drafted"), program.path("held"))
    if status:
        yield "%s: hold doesn't take the draft that is filled in: %s" % (program.name, text.strip())


def check_programs(scale, pace):
    """What is wrong of fitted images."""
    for which in PROGRAMS:
        with tempfile.TemporaryDirectory(prefix="pace-fits-") as folder:
            program = fit.Program(Tools(scale, pace), folder, which, SIZE)
            worst = program.worst()
            yield from check_made_draft(program)
            for factor in fit.DEADLINES:
                for inputs in (fit.FITTED, ()):
                    for fault in fit.fit(program, factor, worst, inputs)[0]:
                        yield "%s, deadline %s times the worst cycles, %d inputs: %s" % (program.name, factor, len(inputs), fault)


def main():
    scale, *programs = map(os.path.abspath, sys.argv[1:])
    wrong = []
    for pace in programs:
        with tempfile.TemporaryDirectory(prefix="pace-fits-") as folder:
            wrong += check_taken(scale, folder)
            wrong += check_large(scale, pace, folder)
            for image, deadline, words in VERSIONED:
                wrong += check_versions(scale, pace, folder, image, deadline, words)
        wrong += check_programs(scale, pace)
    print("\n".join([*wrong, "%d builds of pace%s" % (len(programs), ", and not all as expected" if wrong else " as expected")]))
    return 1 if wrong else 0


if __name__ == "__main__":
    sys.exit(main())

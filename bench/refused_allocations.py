#!/usr/bin/env python3
"""Refuses each allocation of `scale` in turn, on a few commands.

    refused_allocations.py [PROGRAM]   this program; without one, that which `./scale` builds

A command is run again and again, and in run N its Nth allocation is refused, up to the first run that makes fewer, which must end
with status 0. A run whose Nth allocation and all behind it are refused must end with status 4, print nothing and store nothing. Where
the Nth alone is refused, it must do the same, or else all that the command does with its memory: a list that grows
asks for more than it needs, and then for just that much. `refuse_allocation.rs` does the refusing, as a library that is loaded before the C library, since
`rt try --fail-alloc N` builds the program anew for each N, which takes a minute. Wants rustc. Works in a temporary folder.
"""

import itertools
import os
import subprocess
import sys
import tempfile

from graphs import image
from runs import DATA, TOP, build

PROGRAM = os.path.join(TOP, "crates", "scale_tool", "out", "scale_tool")
SEVEN = [0x00700513, 0x05D00893, 0x00000073]
# Reads a byte, and divides six times where there is one; its branch has a switch where the deadline is 160.
READ_ONE = [0x03F00893, 0x00010593, 0x00100613, 0x00000073, 0x00050E63] + [0x0262C2B3] * 6 + [0x05D00893, 0x00000073]
COMMANDS = [
    "hold seven m loops out",
    "rewrite read-one m-160 loops out",
    "simulate read-one m none out loops",
    "make 0 1 made",
]


def compiled(folder):
    source = os.path.join(TOP, "bench", "refuse_allocation.rs")
    library = os.path.join(folder, "refuse.so")
    words = ["rustc", "--edition", "2024", "-O", "-C", "panic=abort", "--crate-type", "cdylib", "-o", library, source]
    subprocess.run(words, check=True)
    return library


def run(program, files, command, library, number, following):
    """The status of the command, what it printed, whether an allocation was refused, and the files that it made."""
    env = {"LD_PRELOAD": library, "REFUSE": str(number)}
    if following:
        env["FOLLOWING"] = "1"
    with tempfile.TemporaryDirectory(prefix="scale-refused-") as folder:
        for name, content in files.items():
            with open(os.path.join(folder, name), "wb") as file:
                file.write(content)
        done = subprocess.run([program] + command.split(), cwd=folder, env=env, capture_output=True, timeout=60)
        made = {}
        for name in set(os.listdir(folder)) - set(files):
            with open(os.path.join(folder, name), "rb") as file:
                made[name] = file.read()
    return done.returncode, done.stdout, done.stderr, made


def refuse_each(program, files, command, library):
    """How many allocations of the command were refused, and how many of them it could do without."""
    status, text, told, made = run(program, files, command, library, 0, False)
    if (status, told) != (0, b"") or not made:
        sys.exit("scale %s: with all its memory: status %d, made %s" % (command, status, sorted(made)))
    whole, wanted = (0, text, b"refused\n", made), (4, b"", b"refused\n", {})
    spared = 0
    for number in itertools.count(1):
        alone = run(program, files, command, library, number, False)
        if not alone[2]:
            if number == 1:
                sys.exit("scale %s: no allocation was refused: is this a build whose allocator is its own?" % command)
            return number - 1, spared
        following = run(program, files, command, library, number, True)
        if alone not in (whole, wanted) or following != wanted:
            bad = following if alone in (whole, wanted) else alone
            told = (command, number, bad[0], bad[1][:80], bad[2][:80], sorted(bad[3]))
            sys.exit("scale %s: allocation %d refused: status %d, printed %r and %r, made %s" % told)
        spared += alone == whole


def main():
    if len(sys.argv) > 1:
        program = os.path.abspath(sys.argv[1])
    else:
        build()
        program = PROGRAM
    with open(os.path.join(DATA, "m.toml")) as file:
        machine = file.read()
    files = {
        "seven": image(SEVEN),
        "read-one": image(READ_ONE),
        "m": machine.encode(),
        "m-160": machine.replace("deadline = 28", "deadline = 160").encode(),
        "loops": b"version = 1\n",
        "none": b"",
    }
    told = subprocess.run([program, "help"], capture_output=True, check=True).stdout.decode()
    whole = 0
    with tempfile.TemporaryDirectory() as folder:
        library = compiled(folder)
        for command in COMMANDS:
            if "scale %s " % command.split()[0] not in told:
                print("%-36s is no command of this program" % command)
                continue
            count, spared = refuse_each(program, files, command, library)
            whole += count
            print("%-36s %6d allocations, without %d of which it does all" % (command, count, spared), flush=True)
    print("%d allocations refused: status 4 with nothing printed and nothing stored, or all that the command does" % whole)


if __name__ == "__main__":
    main()

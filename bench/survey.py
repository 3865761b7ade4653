#!/usr/bin/env python3
"""Prints how long `scale survey` takes over 64 inputs beside the runs that it tells of, and how long `scale tune` takes over 8 inputs beside the
rewritings that it chooses from and their runs.

It makes files in a temporary folder: a program that reads a byte and turns a counted loop 1,024 times for each of its units, what `rewrite` stores of
it, and inputs of one byte, from 64 on. A run of the program takes 300,000 to 700,000 steps, and one of its scaled image more than twice as many. Each
command is run three times, of which the best counts:
- survey: `survey` over 64 inputs;
- runs alone: `simulate` of the program with its loop file, and of its scaled image, over each of these;
- tune: `tune` over 8 inputs;
- one by one: `hold`, `rewrite` for 16 least gains with the loop counted and not, `simulate` of the program with its loop file over each of these
  inputs, and `simulate` of each stored image over each of them.

Behind the times of many commands stands how much of it starting the program takes, by the time of `help`. A survey should take at most 1.1 times as
long as its runs alone, and that without starting the program too. Run it from anywhere; it builds the program first where that isn't built yet.
"""

import os
import sys
import tempfile

from graphs import ENTRY, EXIT, image
from runs import PROGRAM, best_of, build, machine_text

INPUTS = 64
TUNED = 8
LIMIT = 1.1

# It reads a byte onto the stack, and begins to count at 1,024 times its value: addi x17,x0,63; addi x11,x2,0; addi x12,x0,1; ecall;
# lbu x5,0(x11); slli x5,x5,10.
COUNT = [0x03F00893, 0x00010593, 0x00100613, 0x00000073, 0x0005C283, 0x00A29293]
# It counts down with a load, a sum and a store each time.
TURN = [0xFE012303, 0x00130313, 0xFE612023, 0xFFF28293, 0xFE0298E3]
HEADER = ENTRY + 4 * len(COUNT)
LOOPS = "version = 1\n[[loop]]\nheader = %d\nranges = [[%d, %d]]\nbound = %d\ncounted = %s\n"
# Time enough for level 1 without stubs, and for level 2 with them.
DEADLINE = 6000000


class Files:
    """The files of a folder."""

    def __init__(self, folder):
        self.folder = folder
        self.image = self.write("image.elf", image(COUNT + TURN + EXIT))
        self.loops = self.write_loops("counted.toml", "true")
        self.uncounted = self.write_loops("uncounted.toml", "false")
        self.inputs = [self.write("input-%d" % k, bytes([64 + k])) for k in range(INPUTS)]
        self.out = os.path.join(folder, "output")

    def write(self, name, content):
        path = os.path.join(self.folder, name)
        with open(path, "wb") as file:
            file.write(content)
        return path

    def write_loops(self, name, counted):
        text = LOOPS % (HEADER, HEADER, HEADER + 4 * len(TURN), 255 * 1024, counted)
        return self.write(name, text.encode())

    def machine(self, gain):
        text = machine_text("deadline", 28, DEADLINE).replace("steps = 1000000\n", "steps = 100000000\n")
        return self.write("machine-%d.toml" % gain, text.replace("min_gain = 20\n", "min_gain = %d\n" % gain).encode())


def timed(words):
    took, status, lines = best_of(words, PROGRAM)
    if status != 0:
        sys.exit("scale %s: status %d: %s" % (" ".join(words), status, lines))
    return took, lines


def runs(files, path, machine, inputs, loops=()):
    """The time of a run of this image over each of the inputs."""
    return sum(timed(["simulate", path, machine, given, files.out, *loops])[0] for given in inputs)


def stored(word, files, machine, loops, name):
    """The time of a command that stores an image under this name, and the image's path."""
    path = os.path.join(files.folder, name)
    return timed([word, files.image, machine, loops, path])[0], path


def show(name, took, said):
    print("%-12s %8.3f s   %s" % (name, took, said))


def survey(files, start):
    machine = files.machine(20)
    _, scaled = stored("rewrite", files, machine, files.loops, "scaled.elf")
    took, lines = timed(["survey", files.image, scaled, machine, files.loops, *files.inputs])
    show("survey", took, ", ".join(lines[INPUTS:]))
    alone = runs(files, files.image, machine, files.inputs, [files.loops]) + runs(files, scaled, machine, files.inputs)
    show("runs alone", alone, "%d runs, of which starting the program %.3f s" % (2 * INPUTS, 2 * INPUTS * start))
    whole, net = took / alone, (took - start) / (alone - 2 * INPUTS * start)
    said = "within" if max(whole, net) <= LIMIT else "OVER"
    print("%.2f times the runs alone, %.2f times without starting the program   %s %.1f" % (whole, net, said, LIMIT))


def candidates(files, machine):
    """The time of the 33 commands, and the images that they store."""
    took, path = stored("hold", files, machine, files.loops, "candidate-0.elf")
    paths = [path]
    for power in range(16):
        for loops in [files.loops, files.uncounted]:
            more, path = stored("rewrite", files, files.machine(4**power), loops, "candidate-%d.elf" % len(paths))
            took += more
            paths.append(path)
    return took, paths


def tune(files, start):
    machine, inputs = files.machine(20), files.inputs[:TUNED]
    took, lines = timed(["tune", files.image, machine, files.loops, files.out, *inputs])
    show("tune", took, ", ".join([lines[0], *lines[-4:]]))
    alone, paths = candidates(files, machine)
    alone += runs(files, files.image, machine, inputs, [files.loops])
    alone += sum(runs(files, path, machine, inputs) for path in paths)
    count = len(paths) + (len(paths) + 1) * TUNED
    show("one by one", alone, "%d commands, of which starting the program %.3f s" % (count, count * start))
    net = (took - start) / (alone - count * start)
    print("%.2f times one by one, %.2f times without starting the program" % (took / alone, net))


def main():
    build()
    start, _ = timed(["help"])
    with tempfile.TemporaryDirectory() as folder:
        files = Files(folder)
        survey(files, start)
        tune(files, start)


if __name__ == "__main__":
    main()

"""What the scripts of this folder share: the program, its files, and a run of a command that stores an image, with its time."""

import os
import subprocess
import time

TOP = os.path.dirname(os.path.dirname(os.path.abspath(__file__)))
SCALE = os.path.join(TOP, "scale")
DATA = os.path.join(TOP, "crates", "scale_tool", "data")
# What `./scale` builds and starts.
PROGRAM = os.path.join(TOP, "crates", "scale_tool", "out", "scale_tool")


def build():
    """Builds the program where that isn't built yet: no words are no command."""
    subprocess.run([SCALE], capture_output=True)


def machine_text(key, before, value):
    """The machine file of `crates/scale_tool/data` with another number for one of its keys."""
    with open(os.path.join(DATA, "m.toml")) as file:
        return file.read().replace("%s = %d\n" % (key, before), "%s = %d\n" % (key, value))


def write_machine(folder, deadline=4000000000000000000):
    """Writes `machine.toml` into a folder, with a deadline that is never missed."""
    with open(os.path.join(folder, "machine.toml"), "w") as file:
        file.write(machine_text("deadline", 28, deadline))


def best_of(words, program=SCALE):
    """Runs the program with these words three times; the best time in seconds, the status, and what was printed, by lines."""
    best = None
    for _ in range(3):
        begin = time.perf_counter()
        done = subprocess.run([program, *words], capture_output=True)
        took = time.perf_counter() - begin
        best = took if best is None else min(best, took)
    return best, done.returncode, done.stdout.decode().splitlines()


def store(word, folder, image, *files):
    """Has the command of a word make an image of this one and these files three times: as `best_of`."""
    path = os.path.join(folder, "image.elf")
    with open(path, "wb") as file:
        file.write(image)
    return best_of([word, path, *files, os.path.join(folder, "out.elf")])


def hold(folder, image, machine, loops=os.path.join(DATA, "loops.toml")):
    """The same for `hold`."""
    return store("hold", folder, image, machine, loops)

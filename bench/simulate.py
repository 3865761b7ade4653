#!/usr/bin/env python3
"""Prints how long `scale simulate` takes on a run of some 21 million steps, without and with a loop file (so what watching them
takes), and how long a plain interpreter of the same design in Rust takes, which prices the steps too. Wants rustc. Works in a
temporary folder.
"""

import os
import subprocess
import tempfile
import time

from graphs import image
from runs import SCALE, TOP, build, machine_text

# Counts down from 4,194,304 with a load, a sum and a store each time.
COUNT = 1024
WORDS = [COUNT << 12 | 0x2B7, 0xFE012303, 0x00130313, 0xFE612023, 0xFFF28293, 0xFE0298E3, 0x05D00893, 0x00000073]
STEPS = 5 * COUNT * 4096 + 3
NOTE = "[[loop]]\nheader = %d\nranges = [[%d, %d]]\nbound = 4194304\n"
LOOPS = "version = 1\n" + NOTE % (0x10004, 0x10004, 0x10018)
# The same with 4,095 loops elsewhere.
MANY = LOOPS + "".join(NOTE % (at, at, at + 4) for at in range(0x20000, 0x20000 + 4 * 4095, 4))


def best(command):
    times = []
    for _ in range(3):
        begin = time.perf_counter()
        done = subprocess.run(command, capture_output=True, check=True)
        times.append(time.perf_counter() - begin)
    return min(times), done.stdout.decode().split("\n")[0][:60]


def show(name, command):
    took, told = best(command)
    print("%-20s %6.3f s, %12.0f steps a second   %s" % (name, took, STEPS / took, told))
    return took


def main():
    build()
    with tempfile.TemporaryDirectory() as folder:
        path = {name: os.path.join(folder, name) for name in ["image", "machine", "input", "out", "loops", "many", "plain"]}
        with open(path["image"], "wb") as file:
            file.write(image(WORDS))
        machine = machine_text("steps", 1000000, 100000000)
        for name, text in [("machine", machine), ("input", ""), ("loops", LOOPS), ("many", MANY)]:
            with open(path[name], "w") as file:
                file.write(text)
        source = os.path.join(TOP, "bench", "plain_interpreter.rs")
        subprocess.run(["rustc", "--edition", "2024", "-O", "-o", path["plain"], source], check=True)
        command = [SCALE, "simulate", path["image"], path["machine"], path["input"], path["out"]]
        alone = show("simulate", command)
        for name, loops in [("with one loop", "loops"), ("with 4,096 loops", "many")]:
            watched = show(name, command + [path[loops]])
            print("%-20s %6.3f s more" % ("", watched - alone))
        plain = show("plain", [path["plain"], str(COUNT)])
        print("simulate runs at %.2f times the speed of the plain interpreter" % (plain / alone))


if __name__ == "__main__":
    main()

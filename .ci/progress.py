#!/usr/bin/env python3
"""Checks what long runs tell of how far they are.

    progress.py SCALE .. -- PACE ..   these builds of `scale` and of `pace`

Where standard error is a terminal, a run of more than a second tells on it how far it is: a line that is written anew, at most twice a second, and cleared in the end.
Standard output and the stored file are the same as without a terminal. Where it is none, where `SCALE_QUIET` is set, and in a short run, nothing is told.
The top call of each program that tells how far it is has the clauses of the one that doesn't, letter by letter.
"""

import os
import pty
import re
import subprocess
import sys
import tempfile
import threading
import time

import cases

sys.path.insert(0, os.path.join(cases.TOP, "bench"))

import graphs  # noqa: E402
import runs  # noqa: E402

# Counts down from a multiple of 4,096 with a load, a sum and a store each time, and exits.
WORDS = [0xFE012303, 0x00130313, 0xFE612023, 0xFFF28293, 0xFE0298E3, 0x05D00893, 0x00000073]
LOOPS = "version = 1\n[[loop]]\nheader = 0x10004\nranges = [[0x10004, 0x10018]]\nbound = 1000000000\n"
TOPS = [("scale_tool/src/tool.rt", "run_tool"), ("pace_tool/src/pace.rt", "run_pace")]
# The seconds that a run is to take at least, and before the first line and between two.
LONG, FIRST, NEXT = 3.0, 1.0, 0.5
# The most multiples that are tried.
MOST = 1 << 17
# The most inputs of a command: a draft runs at most so many steps on each that many are needed for a long run.
MOST_INPUTS = 64
SECONDS = 300
STEPS = rb"(0|[1-9]\d*) steps"
LINE = {
    "simulate": rb"scale: " + STEPS,
    "survey": rb"scale: input [12] of 2, " + STEPS,
    "tune": rb"scale: (candidate (\d|[12]\d|3[0-3]) of 33, )?(input 1 of 1, )?" + STEPS,
    "fit": rb"pace: (candidate \d+ of \d+, )?(input 1 of 1, )?" + STEPS,
    "all": rb"pace: (candidate \d+ of \d+, )?(input 1 of 1, )?" + STEPS,
    "loops": rb"pace: input [1-9]\d? of %d, " % MOST_INPUTS + STEPS,
    "draw run": rb"pace: input [12] of 2, " + STEPS,
}


def clauses_of(text, name):
    """The clauses of a public function, as they stand."""
    return re.search(r"^pub fn %s\b.*?\) -> u8\n(.*?)^\{$" % name, text, re.M | re.S)[1]


def check_clauses():
    """What is wrong of the clauses of the top calls."""
    for path, name in TOPS:
        with open(os.path.join(cases.TOP, "crates", path), encoding="utf-8") as file:
            text = file.read()
        if clauses_of(text, name) != clauses_of(text, name + "_with_progress"):
            yield "%s: %s_with_progress has other clauses than %s" % (path, name, name)


class Answer:
    """What comes of a command: its time, its status, what it prints, what it stores, and what it tells."""

    def __init__(self, folder, words, environment, is_terminal):
        self.told, reader = b"", None
        end, other = pty.openpty() if is_terminal else os.pipe()
        reader = threading.Thread(target=self.read, args=(end,))
        reader.start()
        begin = time.monotonic()
        process = subprocess.Popen(words, cwd=folder, env={**os.environ, **environment}, stdout=subprocess.PIPE, stderr=other)
        os.close(other)
        try:
            self.printed = process.communicate(timeout=SECONDS)[0]
        finally:
            process.kill()
        self.took, self.status = time.monotonic() - begin, process.returncode
        reader.join()
        os.close(end)
        out = os.path.join(folder, "out")
        self.stored = b""
        if os.path.exists(out):
            with open(out, "rb") as file:
                self.stored = file.read()
            os.remove(out)

    def read(self, end):
        """Reads to the end; that of a terminal comes as an error."""
        while True:
            try:
                more = os.read(end, 65536)
            except OSError:
                return
            if not more:
                return
            self.told += more

    def comes(self):
        return self.status, self.printed, self.stored


def write_image(folder, count):
    with open(os.path.join(folder, "image"), "wb") as file:
        file.write(graphs.image([count << 12 | 0x2B7, *WORDS]))


def long_enough(folder, words, seconds):
    """Has the image count so far that the command takes these seconds without a terminal: its answer."""
    count = 16
    while True:
        write_image(folder, count)
        answer = Answer(folder, words, {"SCALE_QUIET": ""}, False)
        if answer.took >= seconds or count >= MOST:
            return answer
        count *= 2


def check(folder, name, words):
    """What is wrong of a long command."""
    alone = long_enough(folder, words, LONG)
    if alone.status != 0 or alone.told or alone.took < LONG:
        yield "%s, no terminal: status %d, %r, after %.1f s" % (name, alone.status, alone.told, alone.took)
        return
    for environment in ({"SCALE_QUIET": ""}, {"SCALE_QUIET": "1"}):
        quiet = Answer(folder, words, environment, True)
        if quiet.comes() != alone.comes() or quiet.told:
            yield "%s with SCALE_QUIET: status %d, %r" % (name, quiet.status, quiet.told)
    shown = Answer(folder, words, {}, True)
    if shown.comes() != alone.comes():
        yield "%s at a terminal: status %d, %r" % (name, shown.status, shown.printed)
    if not re.fullmatch(rb"(\r" + LINE[name] + rb"\x1b\[K)+\r\x1b\[K", shown.told):
        yield "%s at a terminal: %r" % (name, shown.told)
    lines = shown.told.count(b"\r") - 1
    if lines > 1 + (shown.took - FIRST) / NEXT:
        yield "%s at a terminal: %d lines in %.1f s" % (name, lines, shown.took)


def check_short(folder, words):
    """What is wrong of a short run at a terminal."""
    write_image(folder, 1)
    short = Answer(folder, words, {}, True)
    if short.status != 0 or short.told:
        yield "a short run at a terminal: status %d, %r" % (short.status, short.told)


def main():
    scales, paces = (list(map(os.path.abspath, group)) for group in (sys.argv[1 : sys.argv.index("--")], sys.argv[sys.argv.index("--") + 1 :]))
    os.environ.pop("SCALE_QUIET", None)
    wrong = list(check_clauses())
    with tempfile.TemporaryDirectory(prefix="progress-") as folder:
        machine = runs.machine_text("deadline", 28, 4000000000000000000).replace("steps = 1000000\n", "steps = 1099511627776\n")
        for name, text in (("machine", machine), ("loops", LOOPS), ("input", "")):
            with open(os.path.join(folder, name), "w") as file:
                file.write(text)
        for scale in scales:
            simulate = [scale, "simulate", "image", "machine", "input", "out"]
            wrong += check_short(folder, simulate)
            wrong += check(folder, "simulate", simulate)
            wrong += check(folder, "survey", [scale, "survey", "image", "image", "machine", "loops", "input", "input"])
            wrong += check(folder, "tune", [scale, "tune", "image", "machine", "loops", "out", "input"])
        for pace in paces:
            wrong += check(folder, "fit", [pace, "fit", "image", "machine", "loops", "out", "input"])
            wrong += check(folder, "all", [pace, "all", "image", "machine", "out", "input"])
            wrong += check(folder, "loops", [pace, "loops", "image", "out", *MOST_INPUTS * ["input"]])
            wrong += check(folder, "draw run", [pace, "draw", "run", "machine", "out", *2 * ["image", "input"]])
    builds = "%d builds of scale and %d of pace" % (len(scales), len(paces))
    print("\n".join([*wrong, "progress: %s%s" % (builds, ", and not all as expected" if wrong else " as expected")]))
    return 1 if wrong else 0


if __name__ == "__main__":
    sys.exit(main())

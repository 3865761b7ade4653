#!/usr/bin/env python3
"""Tests `tools/build.py` on small trees, with a stand-in for `rt` that proves nothing and takes the locks that `rt` takes."""

import os
import re
import signal
import subprocess
import sys
import tempfile
import time
import unittest
from pathlib import Path

TOOLS = Path(__file__).resolve().parent.parent / "tools"
# The tool stands over a pair of crates over the lowest; nothing of it needs the crate beside. (A crate may stand above those that it uses.)
LIST = """# The lowest
low:
top: left right low  # and no other
left: low std
right: low
beside: low
tool: top low
"""
# What a source says decides how its proof goes.
RT = """#!/usr/bin/env python3
import fcntl, hashlib, os, subprocess, sys, time
verb, name, top = sys.argv[1], os.path.basename(os.getcwd()), os.path.abspath("../..")
room, events = os.environ["ROOM"], f"{os.environ['ROOM']}/events"

def note(what):
    with open(events, "a") as file:
        file.write(f"{what} {name} {sys.argv[3]}\\n")

rows = [row.partition("#")[0].partition(":") for row in open(f"{top}/crates.txt")]
uses = {row[0].strip(): row[2].split() for row in rows if row[0].strip()}
def below(it):
    return {that for use in uses[it] if use in uses for that in (use, *below(use))}
def text(it):
    return open(f"{top}/crates/{it}/src/lib.rt").read()
def stamp(it):
    return hashlib.sha256("".join(map(text, sorted([it, *below(it)]))).encode()).hexdigest()

held = [os.open(f"{top}/crates/{it}", os.O_RDONLY) for it in sorted([name, *below(name)])]
for it in held:
    fcntl.flock(it, fcntl.LOCK_EX)
for it in below(name):
    if open(f"{top}/crates/{it}/out/rlib/stamp").read() != stamp(it):
        sys.exit(f"{it} isn't built")
kept = "out/rlib/stamp" if verb == "lib" else f"out/{name}.stamp"
if not os.path.exists(kept) or open(kept).read() != stamp(name) or verb == "run" and not os.path.exists(f"out/{name}"):
    with open(f"{room}/{name}.number", "w") as file:
        file.write(str(os.getpid()))
    note("begin")
    os.makedirs("out/rlib", exist_ok=True)
    if os.path.exists(kept):
        os.remove(kept)
    with open(f"out/{name}", "w") as file:
        file.write("half")
    os.chmod(f"out/{name}", 0o755)
    # What this one starts is killed when it ends, as what rt starts is.
    ends, _ = os.pipe()
    guard = subprocess.Popen(["sh", "-c", "read _; kill -9 0"], stdin=ends, preexec_fn=os.setpgrp)
    if "long" in text(name):
        wait = f"while [ ! -e {room}/go ]; do sleep 0.1; done"
        subprocess.run(["sh", "-c", wait], preexec_fn=lambda: os.setpgid(0, guard.pid))
    while "pair" in text(name) and not all(f"begin {it} " in open(events).read() for it in ("left", "right")):
        time.sleep(0.05)
    if "huge" in text(name) and not os.path.exists(f"{room}/killed"):
        open(f"{room}/killed", "w").close()
        sys.exit(256 - 9)
    if "wrong" in text(name):
        print("the first line", *range(100), f"the {name} is wrong at {os.getcwd()}/src", sep="\\n")
        # Where nothing was judged, the status is that of a program without words, but there is no program.
        if "call" in text(name):
            os.remove(f"out/{name}")
            sys.exit(2)
        sys.exit(1)
    if verb == "lib":
        os.remove(f"out/{name}")
    with open(f"out/{name}", "w") as file:
        file.write(f"#!/bin/sh\\necho $#: $*\\nexit 2\\n")
    with open(kept, "w") as file:
        file.write(stamp(name))
    note("end")
if verb == "run":
    sys.exit(subprocess.call([f"out/{name}"]))
"""

# A kit whose `rt` sums the sources of the crate in this folder twice, and prints whose sources were read, and what is below.
KIT = """import os, sys, types
sys.path.insert(0, os.path.dirname(os.path.realpath(__file__)))
import rtlib

def main(words):
    low = rtlib.Crate("low")
    left, right = rtlib.Crate("left", low), rtlib.Crate("right", low)
    top = rtlib.Crate("top", left, right)
    sums = {top.stamp(), top.stamp()}
    print(*words, len(sums), *rtlib.read, *(it.name for it in top.below()))
    return 3

if __name__ == "__main__":
    sys.exit(main(sys.argv[1:]))
"""
KIT_LIBRARY = """import os
read = []

class Crate:
    def __init__(self, name, *deps):
        self.name, self.deps, self.folder = name, deps, os.path.join(os.path.dirname(os.getcwd()), name)

    def stamp(self):
        read.append(self.name)
        return " ".join([self.name, *(it.stamp() for it in self.deps)])

    def below(self):
        found = []
        for dep in self.deps:
            found += [it for it in [*dep.below(), dep] if it not in found]
        return found
"""


def has_ended(number):
    """Whether a process has ended, also where nothing has asked for its status yet."""
    try:
        return re.search(r"\) (.)", Path(f"/proc/{number}/stat").read_text())[1] == "Z"
    except OSError:
        return True


class Builds(unittest.TestCase):
    def setUp(self):
        room = tempfile.TemporaryDirectory()
        self.addCleanup(room.cleanup)
        self.room = Path(room.name)
        self.top, self.events, self.bin = (self.room / it for it in ("top", "events", "bin"))
        for folder in (self.top / ".git", self.top / "tools", self.bin):
            folder.mkdir(parents=True)
        for script in ("build.py", "rt_once.py"):
            (self.top / "tools" / script).write_bytes((TOOLS / script).read_bytes())
        (self.top / "crates.txt").write_text(LIST)
        for crate in ("low", "top", "left", "right", "beside", "tool"):
            self.write(crate, f"as {crate} was")
        (self.bin / "rt").write_text(RT)
        (self.bin / "rt").chmod(0o755)
        self.made = self.top / "crates" / "tool" / "out" / "tool"
        self.path = {**os.environ, "PATH": f"{self.bin}:{os.environ['PATH']}", "ROOM": str(self.room)}

    def write(self, crate, text):
        source = self.top / "crates" / crate / "src" / "lib.rt"
        source.parent.mkdir(parents=True, exist_ok=True)
        source.write_text(f"{text}\n")

    def begin(self, *words, **how):
        how = {"stdin": subprocess.DEVNULL, "stdout": subprocess.PIPE, "stderr": subprocess.PIPE, "text": True, "env": self.path, **how}
        return subprocess.Popen([sys.executable, self.top / "tools" / "build.py", "tool", "teller", *words], **how)

    def build(self, *words, **how):
        """Returns the status of a call, what it printed, and what it said on standard error."""
        call = self.begin(*words, **how)
        out, err = call.communicate(timeout=60)
        return call.returncode, out, err

    def proved(self):
        """Returns what was proved since this was asked, in order of the ends."""
        lines = self.events.read_text().splitlines() if self.events.exists() else []
        self.events.unlink(missing_ok=True)
        return [line.split()[1] for line in lines if line.startswith("end ")]

    def wait_for(self, event):
        for _ in range(600):
            if self.events.exists() and event in self.events.read_text():
                return
            time.sleep(0.05)
        self.fail(f"no {event}")

    def is_clean(self):
        """Nothing is left of lanes, and nothing half built."""
        self.assertEqual([], list((self.top / ".git").iterdir()))
        self.assertFalse(self.made.exists() and self.made.read_text() == "half")

    def test_each_crate_once_above_what_it_uses(self):
        count = min(len(os.sched_getaffinity(0)), 4)
        for crate in ("left", "right") if count > 1 else ():
            # Each waits until the other runs too.
            self.write(crate, f"as {crate} was, of a pair")
        status, out, err = self.build("--run", "some", "words here")
        self.assertEqual((2, "2: some words here\n"), (status, out))
        # What runs alone has all processors.
        self.assertIn(f"begin low {count}\n", self.events.read_text())
        proved = self.proved()
        self.assertEqual((5, "low", {"left", "right"}, ["top", "tool"]), (len(proved), proved[0], {*proved[1:3]}, proved[3:]))
        self.assertIn("teller: 5 of 5 crates proved, ", err)
        self.is_clean()
        # What is built is taken, and the program alone is run.
        self.assertEqual((2, "0:\n", ""), self.build("--run"))
        self.assertEqual((0, "", ""), self.build())
        self.assertEqual([], self.proved())

    def test_what_changed_is_built_again(self):
        self.build()
        self.proved()
        self.write("left", "as left is")
        self.assertEqual((2, "1: word\n"), self.build("--run", "word")[:2])
        self.assertEqual({"left", "top", "tool"}, set(self.proved()))
        self.write("beside", "no part of it")
        self.assertEqual((0, "", ""), self.build())

    def test_a_source_that_changes_meanwhile_is_newer(self):
        self.write("top", "long")
        call = self.begin()
        self.wait_for("begin top")
        self.write("top", "changed")
        (self.room / "go").touch()
        call.communicate(timeout=60)
        self.assertEqual(0, call.returncode)
        self.assertGreater((self.top / "crates/top/src/lib.rt").stat().st_mtime, self.made.stat().st_mtime)
        self.proved()
        self.assertEqual(0, self.build()[0])
        self.assertEqual(["top", "tool"], self.proved())

    def test_what_fails_is_shown(self):
        self.write("right", "wrong")
        status, out, err = self.build("--run", "word")
        self.assertEqual((70, ""), (status, out))
        log = self.top / "crates" / "right" / "out" / "build.log"
        self.assertIn(f"\n    the right is wrong at {self.top}/crates/right/src\n", err)
        self.assertIn(f"teller: right isn't proved or built; {log} has all that was said; ", err)
        self.assertNotIn("the first line", err)
        self.assertIn("the first line", log.read_text())
        self.assertNotIn("top", self.proved())
        self.is_clean()
        self.write("right", "right")
        self.assertEqual(0, self.build()[0])
        self.assertEqual(["right", "top", "tool"], [it for it in self.proved() if it != "left"])

    def test_a_program_that_fails_is_not_there(self):
        for text in ("wrong", "wrong call"):
            with self.subTest(text):
                self.write("tool", text)
                self.assertEqual(70, self.build("--run")[0])
                self.assertFalse(self.made.exists())
                self.write("tool", "right")
                self.assertEqual(0, self.build()[0])

    def stopped_by(self, number):
        self.write("top", "long")
        call = self.begin("--run")
        self.wait_for("begin top")
        call.send_signal(number)
        err = call.communicate(timeout=60)[1]
        return call.returncode, err, (self.room / "top.number").read_text()

    def test_an_interrupt_ends_all_and_the_next_call_goes_on(self):
        for number in (signal.SIGINT, signal.SIGTERM):
            with self.subTest(number):
                status, err, child = self.stopped_by(number)
                self.assertEqual(-number, status)
                self.assertIn("teller: interrupted; ", err)
                self.assertTrue(has_ended(child))
                self.is_clean()
                self.proved()
                self.assertFalse((self.top / "crates/top/out/rlib/stamp").exists())
        self.write("top", "short")
        self.assertEqual(0, self.build()[0])
        self.assertEqual(["top", "tool"], self.proved())
        self.is_clean()

    def test_a_build_that_was_killed_leaves_nothing_to_the_next(self):
        status, _, child = self.stopped_by(signal.SIGKILL)
        self.assertEqual(-signal.SIGKILL, status)
        for _ in range(100):
            if has_ended(child):
                break
            time.sleep(0.05)
        self.assertTrue(has_ended(child))
        self.proved()
        self.write("top", "short")
        self.assertEqual(0, self.build()[0])
        self.assertEqual(["top", "tool"], self.proved())
        self.is_clean()

    def test_two_at_once_build_once(self):
        self.write("top", "long")
        one = self.begin("--run", "one")
        self.wait_for("begin top")
        other = self.begin("--run", "other")
        self.assertIn("teller: waiting for another build", other.stderr.readline())
        (self.room / "go").touch()
        said = [call.communicate(timeout=60) for call in (one, other)]
        self.assertEqual([2, 2], [one.returncode, other.returncode])
        self.assertEqual(["1: one\n", "1: other\n"], [out for out, _ in said])
        self.assertEqual(5, len(self.proved()))

    def test_what_is_killed_runs_once_more_alone(self):
        self.write("left", "huge")
        status, _, err = self.build()
        self.assertEqual(0, status)
        self.assertIn("teller: left was killed, most likely for want of memory: once more", err)
        events = [line.rpartition(" ")[0] for line in self.events.read_text().splitlines()]
        self.assertEqual(["begin left", "end left"], [it for it in events if "left" in it][1:])
        again = len(events) - 1 - events[::-1].index("begin left")
        self.assertLess(events.index("end right"), again)
        self.assertEqual("end left", events[again + 1])

    def test_sums_are_taken_once(self):
        kit = self.room / "kit"
        kit.mkdir()
        (kit / "rt").write_text("#!/usr/bin/env python3\n" + KIT)
        (kit / "rt").chmod(0o755)
        (kit / "rtlib.py").write_text(KIT_LIBRARY)
        (self.bin / "rt").unlink()
        (self.bin / "rt").symlink_to(kit / "rt")
        how = {"cwd": self.top / "crates" / "top", "env": self.path, "capture_output": True, "text": True}
        plain = subprocess.run(["rt", "lib"], **how)
        self.assertEqual((3, "lib 1 top left low right low top left low right low low left right\n"), (plain.returncode, plain.stdout))
        once = subprocess.run([sys.executable, "-B", self.top / "tools" / "rt_once.py", "lib"], **how)
        self.assertEqual((3, "lib 1 top left low right top low left right\n"), (once.returncode, once.stdout))

    def test_without_rt(self):
        (self.bin / "rt").unlink()
        env = {**self.path, "PATH": str(self.bin)}
        status, out, err = self.build("--run", "word", env=env)
        self.assertEqual((70, ""), (status, out))
        self.assertIn("no `rt` on PATH", err)


if __name__ == "__main__":
    unittest.main()

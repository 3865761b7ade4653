#!/usr/bin/env python3
"""Proves and builds a program of this repository: its crate and those below it, each once, as many side by side as there are processors and memory.

    build.py CRATE NAME                  builds crates/CRATE/out/CRATE where it isn't there or a source is newer; its lines begin with NAME
    build.py CRATE NAME --run [WORD ..]  and then becomes that program, with these words

A crate is proved by `rt lib`, the program by `rt run`, once all below it are. Such a call locks the folders of all crates below for as long as it runs,
so each of those that run side by side has a lane: the sources in a room of its own. The crate's `out/` moves there, and back when the call has ended;
what is built below stands there by links. So all is in the end where `rt lib` leaves it in the repository, and what stands there is taken again.

How far it is comes on standard error. Where something fails, the end of its log follows, and where that stands (`crates/CRATE/out/build.log`), with
status 70. An interrupt kills all that was started; what was proved by then stays, and the next call goes on from there.
"""

import contextlib
import ctypes
import fcntl
import os
import re
import shutil
import signal
import subprocess
import sys
import time
from dataclasses import dataclass
from typing import Optional

TOP = os.path.dirname(os.path.dirname(os.path.abspath(__file__)))
# `rt`, which sums each crate once.
RT = (sys.executable, "-B", os.path.join(TOP, "tools", "rt_once.py"))
# What a crate is proved from.
PARTS = ("src", "specs", "proofs")
BROKEN, MISUSED = 70, 64
# With no words, a program stores nothing and ends with this status. So does `rt` where it judged nothing, and then there is no program.
USAGE = 2
# The status of an `rt` whose prover was killed, most likely for want of memory.
KILLED = (-signal.SIGKILL, 256 - signal.SIGKILL)
# Lines of a log that are shown.
SHOWN = 20
# Seconds between two looks at what runs; between two lines, where more is proved and where it isn't; and that what was killed has to end.
LOOK, SPEAK, SPEAK_ANYWAY, LAST = 0.1, 10, 60, 10
# More jobs than these make a proof no faster. Each after the first takes that share of its memory.
MOST_JOBS, JOB_SHARE = 4, 0.6
# How much longer the system lets a process wait whose end nothing waits for.
NICE = 10
PR_SET_PDEATHSIG, PR_SET_CHILD_SUBREAPER = 1, 36


class Stop(Exception):
    """Ends the build, with what is said."""


class Interrupted(Stop):
    """Ends it for a signal."""


def number_in(path, pattern):
    """The number that a pattern finds in a file, or None."""
    try:
        with open(path, encoding="utf-8") as file:
            found = re.search(pattern, file.read())
    except OSError:
        return None
    return int(found[1]) if found else None


def processors():
    """How many processors the process and its control group may use."""
    found = len(os.sched_getaffinity(0))
    quota, period = number_in("/sys/fs/cgroup/cpu.max", r"^(\d+)"), number_in("/sys/fs/cgroup/cpu.max", r" (\d+)")
    return max(min(found, quota // period), 1) if quota and period else found


def free_memory():
    """How many bytes of memory the process and its control group can still take."""
    found = 1024 * (number_in("/proc/meminfo", r"MemAvailable:\s+(\d+)") or 4_000_000)
    limit, held = number_in("/sys/fs/cgroup/memory.max", r"^(\d+)"), number_in("/sys/fs/cgroup/memory.stat", r"(?m)^anon (\d+)")
    return min(found, limit - held) if limit and held is not None else found


def folder_of(crate, *more):
    return os.path.join(TOP, "crates", crate, *more)


def files_of(crate, parts=PARTS):
    return [os.path.join(at, name) for part in parts for at, _, names in os.walk(folder_of(crate, part)) for name in names]


def read_list(program):
    """The line in `crates.txt` of each crate that the program needs, those that are used first, and the set of all crates below each."""
    with open(os.path.join(TOP, "crates.txt"), encoding="utf-8") as file:
        rows = [row.partition("#")[0].strip() for row in file]
    rows = {re.split(r"[\s:]", row)[0]: row for row in rows if row}
    below = {}

    def add(name, above):
        if name in above:
            raise Stop(f"in crates.txt, {name} uses itself")
        used = [it for it in re.split(r"[\s,]+", rows[name].partition(":")[2]) if it in rows]
        for it in used:
            if it not in below:
                add(it, {*above, name})
        below[name] = {*used}.union(*(below[it] for it in used))

    if program not in rows:
        raise Stop(f"crates.txt has no crate {program}")
    add(program, set())
    return {it: rows[it] for it in below}, below


def link_or_copy(one, other):
    """Gives a file a second name, or a copy where that can't be. (`rt` removes a file of a library before it makes it anew.)"""
    try:
        os.link(one, other, follow_symlinks=False)
    except OSError:
        shutil.copy2(one, other, follow_symlinks=False)


class Lanes:
    """Rooms in which `rt` works side by side, each on sources of its own."""

    def __init__(self, program, rows, below):
        self.rows, self.below, self.all, self.free = rows, below, [], []
        # (`rt ci` refuses crates that it finds beside those of the repository, and doesn't look into .git)
        git = os.path.join(TOP, ".git")
        self.room = os.path.join(git if os.path.isdir(git) else os.path.join(TOP, "build"), f"lanes-of-{program}")

    def add(self):
        """Adds a lane with the sources as they stand when the first is added."""
        lane = os.path.join(self.room, str(len(self.all)))
        begin, copy = (self.all[0], link_or_copy) if self.all else (TOP, shutil.copy2)
        for crate in self.below:
            os.makedirs(self.path(lane, crate))
            for part in PARTS:
                if os.path.lexists(self.path(begin, crate, part)):
                    shutil.copytree(self.path(begin, crate, part), self.path(lane, crate, part), symlinks=True, copy_function=copy)
        with open(os.path.join(lane, "crates.txt"), "w", encoding="utf-8") as file:
            file.write("".join(f"{row}\n" for row in self.rows.values()))
        self.all.append(lane)
        self.free.append(lane)

    @staticmethod
    def path(lane, crate, *more):
        return os.path.join(lane, "crates", crate, *more)

    def take(self, crate):
        """Gives a lane in which the crate has its `out/`, and those below it their libraries."""
        if not self.free:
            self.add()
        lane = self.free.pop()
        if os.path.isdir(folder_of(crate, "out")):
            os.rename(folder_of(crate, "out"), self.path(lane, crate, "out"))
        os.makedirs(self.path(lane, crate, "out"), exist_ok=True)
        for it in self.below[crate]:
            if not os.path.isdir(self.path(lane, it, "out", "rlib")):
                shutil.copytree(folder_of(it, "out", "rlib"), self.path(lane, it, "out", "rlib"), copy_function=link_or_copy)
        return lane

    def give_back(self, lane, crate, is_whole):
        """Moves the crate's `out/` back, without a program that isn't whole."""
        if not is_whole:
            with contextlib.suppress(FileNotFoundError):
                os.remove(self.path(lane, crate, "out", crate))
        os.rename(self.path(lane, crate, "out"), folder_of(crate, "out"))
        self.free.append(lane)

    def clear(self):
        """Removes all lanes, also those of a build that was killed, whose crates get back what they had there."""
        for lane in sorted(os.listdir(self.room)) if os.path.isdir(self.room) else []:
            lane = os.path.join(self.room, lane)
            for crate in self.below:
                if os.path.isdir(self.path(lane, crate, "out")) and not os.path.isdir(folder_of(crate, "out")):
                    self.give_back(lane, crate, False)
        shutil.rmtree(self.room, ignore_errors=True)
        self.all, self.free = [], []


@dataclass
class Run:
    """A call of `rt` for a crate, with the processors and the memory that it is taken to need, and its status once it has ended."""

    crate: str
    lane: str
    jobs: int
    need: float
    process: subprocess.Popen
    status: Optional[int] = None


class Build:
    def __init__(self, program, name):
        self.program, self.name, self.signal = program, name, None
        self.made = folder_of(program, "out", program)
        self.built, self.alone, self.running = set(), set(), []
        self.begun = self.spoken = time.time()
        self.told = 0

    def say(self, text):
        print(f"{self.name}: {text}", file=sys.stderr, flush=True)

    def count(self):
        seconds = int(time.time() - self.begun)
        took = f"{seconds // 60} min" if seconds >= 60 else f"{seconds} s"
        return f"{len(self.built)} of {len(self.below)} crates proved, {took}"

    # Before and after.

    def run(self):
        """Builds the program where it isn't current, and returns the status."""
        for number in (signal.SIGINT, signal.SIGTERM, signal.SIGHUP):
            if signal.getsignal(number) is not signal.SIG_IGN:
                signal.signal(number, self.note_signal)
        try:
            rows, self.below = read_list(self.program)
            self.lanes = Lanes(self.program, rows, self.below)
            self.lock()
            if os.access(self.made, os.X_OK) and self.newest() <= os.stat(self.made).st_mtime:
                # (another call has built it, or what is newer is no source of it)
                os.utime(self.made)
            elif shutil.which("rt"):
                self.build()
            else:
                raise Stop("the program isn't built, and there is no `rt` on PATH to prove and build it: README names the kit that has it")
        except Interrupted as stop:
            self.say(str(stop))
            signal.signal(self.signal, signal.SIG_DFL)
            os.kill(os.getpid(), self.signal)
        except (Stop, OSError) as stop:
            self.say(str(stop))
            return BROKEN
        return 0

    def newest(self):
        """When a source of the program was changed last."""
        return max(os.stat(it).st_mtime for crate in self.below for it in files_of(crate, ["src"]))

    def lock(self):
        """Waits until no other build, and no `rt`, works in the crates' folders, and keeps them out until this process ends."""
        has_waited = False
        for folder in sorted(os.path.realpath(folder_of(it)) for it in self.below):
            file = os.open(folder, os.O_RDONLY)
            while not has_lock(file):
                if not has_waited:
                    self.say(f"waiting for another build, or an `rt`, that works in {folder}")
                has_waited = True
                self.stop_on_signal()
                time.sleep(LOOK)

    def note_signal(self, number, _):
        self.signal = number

    def stop_on_signal(self):
        if self.signal:
            raise Interrupted("interrupted; what was proved by now stays, and the next call goes on from there")

    # The build.

    def build(self):
        self.say(f"{len(self.below)} crates are proved and built, up to {processors()} at once, which takes some minutes the first time")
        self.lanes.clear()
        prctl(PR_SET_CHILD_SUBREAPER, 1)
        try:
            self.begun = self.spoken = time.time()
            # What changes from now on is newer than the program.
            when = max(self.begun, self.newest())
            self.lanes.add()
            self.build_all()
            os.utime(self.made, (when, when))
        finally:
            self.end_all()
            self.lanes.clear()
            prctl(PR_SET_CHILD_SUBREAPER, 0)
        self.say(self.count())

    def build_all(self):
        own = {it: sum(map(os.path.getsize, files_of(it))) for it in self.below}
        ahead = chains({it: sum(map(os.path.getsize, files_of(it, ["src"]))) for it in self.below}, self.below)
        most, memory = processors(), 0.85 * free_memory()
        while len(self.built) < len(self.below):
            left = [it for it in self.below if it not in self.built and it not in [run.crate for run in self.running]]
            ready = sorted((it for it in left if self.below[it] <= self.built), key=lambda it: -ahead[it])
            self.start_some(ready, own, ahead, most, memory)
            self.tell()
            time.sleep(LOOK)
            self.stop_on_signal()
            self.reap()
            for run in [it for it in self.running if it.status is not None]:
                self.take_result(run)

    def start_some(self, ready, own, ahead, most, memory):
        """Starts of what can be proved as much as there is room for. What the end waits for gets all jobs; what is beside it has two, and waits for it."""
        for crate in ready:
            room, need = memory - sum(it.need for it in self.running), need_of(crate, own, self.below)
            leads = all(ahead[crate] > ahead[it.crate] for it in self.running)
            is_alone = crate in self.alone or any(it.crate in self.alone for it in self.running)
            if self.running and ((len(self.running) >= most and not leads) or room < need or is_alone):
                return
            jobs = max(min(most, MOST_JOBS if leads else 2, 1 + int((room / need - 1) / JOB_SHARE)), 1)
            self.start(crate, jobs, need * (1 + JOB_SHARE * (jobs - 1)), 0 if leads else NICE)

    def start(self, crate, jobs, need, nice):
        lane = self.lanes.take(crate)
        if crate == self.program:
            # (so that what is there in the end is what was made)
            with contextlib.suppress(FileNotFoundError):
                os.remove(self.lanes.path(lane, crate, "out", crate))
        words = [*RT, "run" if crate == self.program else "lib", "--jobs", str(jobs)]
        with open(self.lanes.path(lane, crate, "out", "build.log"), "w", encoding="utf-8") as log:
            how = {"stdin": subprocess.DEVNULL, "stdout": log, "stderr": subprocess.STDOUT}
            how.update(cwd=self.lanes.path(lane, crate), start_new_session=True, preexec_fn=lambda: begin(nice))
            self.running.append(Run(crate, lane, jobs, need, subprocess.Popen(words, **how)))

    def reap(self):
        """Notes what has ended, and returns whether there is something that hasn't, of what was started here or by what was started here."""
        while True:
            try:
                number, status = os.waitpid(-1, os.WNOHANG)
            except ChildProcessError:
                return False
            if not number:
                return True
            for run in self.running:
                if run.process.pid == number:
                    run.status = -os.WTERMSIG(status) if os.WIFSIGNALED(status) else os.WEXITSTATUS(status)
                    run.process.returncode = run.status

    def take_result(self, run):
        made = self.lanes.path(run.lane, run.crate, "out", run.crate)
        is_whole = run.status == USAGE and os.access(made, os.X_OK) if run.crate == self.program else run.status == 0
        self.lanes.give_back(run.lane, run.crate, is_whole)
        self.running.remove(run)
        if is_whole:
            self.built.add(run.crate)
        elif run.status in KILLED and run.crate not in self.alone:
            self.say(f"{run.crate} was killed, most likely for want of memory: once more, with nothing beside it")
            self.alone.add(run.crate)
        else:
            self.fail(run)

    def fail(self, run):
        log = folder_of(run.crate, "out", "build.log")
        with open(log, encoding="utf-8", errors="replace") as file:
            lines = file.read().replace(run.lane, TOP).splitlines()
        print(*(f"    {it}" for it in lines[-SHOWN:]), sep="\n", file=sys.stderr)
        raise Stop(f"{run.crate} isn't proved or built; {log} has all that was said; {self.count()}")

    def tell(self):
        """Says how far it is, where more is proved than when it was said last, and else from time to time."""
        is_more = len(self.built) > self.told
        if time.time() >= self.spoken + (SPEAK if is_more else SPEAK_ANYWAY):
            self.spoken, self.told = time.time(), len(self.built)
            self.say(f"{self.count()}; now {', '.join(it.crate for it in self.running)}")

    def end_all(self):
        """Kills what still runs, waits until that and all that it started has ended, and moves back what it had."""
        left = [it for it in self.running if it.status is None]
        for run in left:
            # (what an `rt` started is killed as soon as that `rt` has ended)
            os.killpg(run.process.pid, signal.SIGKILL)
        until = time.time() + LAST
        while left and self.reap() and time.time() < until:
            time.sleep(LOOK)
        for run in self.running:
            self.lanes.give_back(run.lane, run.crate, False)
        self.running = []


def chains(code, below):
    """How much is to be proved until the end, from each crate on: the longest chain of crates of which each uses the one before it."""
    found = {}
    for name in reversed(list(below)):
        # (a crate takes the longer the more code it has, and one without any as long as so many bytes; laws take little)
        found[name] = 3_000 + code[name] + max((found[it] for it in found if name in below[it]), default=0)
    return found


def need_of(crate, own, below):
    """About how many bytes of memory a proof takes: more with the crate's length, and with that of what is below it."""
    return 1_000_000_000 + 2000 * own[crate] + 40 * sum(own[it] for it in below[crate])


def has_lock(file):
    try:
        fcntl.flock(file, fcntl.LOCK_EX | fcntl.LOCK_NB)
    except BlockingIOError:
        return False
    except OSError:
        # (some file systems have no locks)
        pass
    return True


def prctl(*words):
    ctypes.CDLL(None).prctl(*words)


def begin(nice):
    """Has this process wait for others so much longer, and killed when the one that started it ends, however that ends."""
    os.nice(nice)
    prctl(PR_SET_PDEATHSIG, signal.SIGKILL)


def main(words):
    if len(words) < 2 or words[2:3] not in ([], ["--run"]):
        print(__doc__, file=sys.stderr)
        return MISUSED
    build = Build(*words[:2])
    status = build.run()
    if status or len(words) == 2:
        return status
    # (Python ignores this signal, and the program would too)
    signal.signal(signal.SIGPIPE, signal.SIG_DFL)
    return os.execv(build.made, [build.made, *words[3:]])


if __name__ == "__main__":
    sys.exit(main(sys.argv[1:]))

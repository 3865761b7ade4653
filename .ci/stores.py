#!/usr/bin/env python3
"""Shows what the program leaves on a disk: a file that is stored whole, or the old one as it was.

    stores.py PROGRAM ..   these programs; with none, the one that `./scale` has built

The contracts say nothing of the system's files, so each way in which a store can fail is met here, in a temporary folder: a file size limit, a
signal in the middle, no room, a folder and a file that may not be written. What is no regular file is written through. At the first
difference it is told, and the status is 1.
"""

import os
import resource
import shutil
import signal
import stat
import subprocess
import sys
import tempfile

TOP = os.path.dirname(os.path.dirname(os.path.abspath(__file__)))
DATA = os.path.join(TOP, "crates", "scale_tool", "data")
WORDS = ["hold", "count.elf", "count-machine.toml", "count-loops.toml"]
OLD = b"the old file\n"
NOBODY = 65534
SECONDS = 60


class Wrong(Exception):
    """What is otherwise than it has to be."""


def expect(what, have, want):
    if have != want:
        raise Wrong(f"{what}: {have!r} in place of {want!r}")


def run(program, folder, out, prepare=None):
    """The program's status, where it stores under `out`; that of a signal is negative."""
    how = {"stdout": subprocess.PIPE, "stderr": subprocess.STDOUT, "timeout": SECONDS}
    return subprocess.run([program, *WORDS, out], cwd=folder, preexec_fn=prepare, **how).returncode


def read(*path):
    with open(os.path.join(*path), "rb") as file:
        return file.read()


def write(*path):
    with open(os.path.join(*path), "wb") as file:
        file.write(OLD)


def new_folder(room, name):
    """A folder with the files of a program, that everybody may write."""
    folder = os.path.join(room, name)
    shutil.copytree(DATA, folder)
    os.chmod(folder, 0o777)
    return folder


def files(folder):
    return sorted(set(os.listdir(folder)) - set(os.listdir(DATA)))


def as_nobody():
    """Gives up the rights of root, which no permission stops."""
    if os.getuid() == 0:
        os.setgid(NOBODY)
        os.setuid(NOBODY)


def limited(handler):
    """A file size limit, below what is stored; the signal that comes with it is handled so."""

    def prepare():
        signal.signal(signal.SIGXFSZ, handler)
        resource.setrlimit(resource.RLIMIT_FSIZE, (100, 100))

    return prepare


def stores_new(program, room):
    folder = new_folder(room, "new")
    expect("status", run(program, folder, "out"), 0)
    expect("files", files(folder), ["out"])
    return read(folder, "out")


def replaces_old(program, room, whole):
    """The permissions of an old file are kept, and the one that a killed run has left is not written over."""
    folder = new_folder(room, "old")
    write(folder, "out")
    write(folder, ".scale-0")
    os.chmod(os.path.join(folder, "out"), 0o640)
    expect("status", run(program, folder, "out"), 0)
    expect("bytes", read(folder, "out"), whole)
    expect("permissions", stat.S_IMODE(os.stat(os.path.join(folder, "out")).st_mode), 0o640)
    expect("left file", read(folder, ".scale-0"), OLD)
    expect("files", files(folder), [".scale-0", "out"])


def stops_at_size_limit(program, room, _whole):
    folder = new_folder(room, "limit")
    write(folder, "out")
    expect("status", run(program, folder, "out", limited(signal.SIG_IGN)), 3)
    expect("bytes", read(folder, "out"), OLD)
    expect("files", files(folder), ["out"])


def is_killed(program, room, whole):
    """A run that is killed in the middle of a store leaves the old file, and the next run stores."""
    folder = new_folder(room, "killed")
    write(folder, "out")
    expect("status", run(program, folder, "out", limited(signal.SIG_DFL)), -signal.SIGXFSZ)
    expect("bytes", read(folder, "out"), OLD)
    expect("status of the next run", run(program, folder, "out"), 0)
    expect("bytes of the next run", read(folder, "out"), whole)


def has_no_room(program, room, _whole):
    """A file system of one page, which the old file and its folder fill. Where this user may mount none, it isn't tried."""
    folder = new_folder(room, "room")
    small = os.path.join(folder, "small")
    os.mkdir(small)
    mounted = subprocess.run(["mount", "-t", "tmpfs", "-o", "size=4096", "tmpfs", small], capture_output=True)
    if mounted.returncode != 0:
        return "a full file system not tried: none can be mounted here"
    try:
        write(small, "out")
        expect("status", run(program, folder, "small/out"), 3)
        expect("bytes", read(small, "out"), OLD)
        expect("files", os.listdir(small), ["out"])
    finally:
        subprocess.run(["umount", small], check=True)
    return None


def may_not_write_folder(program, room, _whole):
    folder = new_folder(room, "closed")
    shut = os.path.join(folder, "shut")
    os.mkdir(shut)
    write(shut, "out")
    os.chmod(os.path.join(shut, "out"), 0o666)
    os.chmod(shut, 0o555)
    expect("status", run(program, folder, "shut/out", as_nobody), 3)
    expect("bytes", read(shut, "out"), OLD)
    expect("files", os.listdir(shut), ["out"])


def may_not_write_file(program, room, _whole):
    folder = new_folder(room, "kept")
    write(folder, "out")
    os.chmod(os.path.join(folder, "out"), 0o444)
    expect("status", run(program, folder, "out", as_nobody), 3)
    expect("bytes", read(folder, "out"), OLD)
    expect("files", files(folder), ["out"])


def writes_through_link(program, room, whole):
    folder = new_folder(room, "link")
    write(folder, "there")
    os.symlink("there", os.path.join(folder, "out"))
    expect("status", run(program, folder, "out"), 0)
    expect("link", os.readlink(os.path.join(folder, "out")), "there")
    expect("bytes", read(folder, "there"), whole)
    expect("files", files(folder), ["out", "there"])


def writes_to_pipe(program, room, whole):
    folder = new_folder(room, "pipe")
    done = subprocess.run([program, *WORDS, "/dev/stdout"], cwd=folder, capture_output=True, timeout=SECONDS)
    expect("status", done.returncode, 0)
    expect("bytes", done.stdout[: len(whole)], whole)
    expect("files", files(folder), [])


WAYS = [replaces_old, stops_at_size_limit, is_killed, has_no_room, may_not_write_folder, may_not_write_file, writes_through_link, writes_to_pipe]


def main():
    programs = sys.argv[1:] or [os.path.join(TOP, "crates", "scale_tool", "out", "scale_tool")]
    for path in programs:
        with tempfile.TemporaryDirectory(prefix="stores-") as room:
            # (who gives up the rights of root may not come to the program where it stands)
            os.chmod(room, 0o755)
            shutil.copy(path, os.path.join(room, "program"))
            program = os.path.join("..", "program")
            whole = stores_new(program, room)
            for way in WAYS:
                try:
                    said = way(program, room, whole)
                except Wrong as wrong:
                    print(f"stores: {path}: {way.__name__}: {wrong}")
                    return 1
                if said:
                    print(f"stores: {said}")
    print(f"stores: {len(WAYS) + 1} ways to end, {len(programs)} programs, all as they have to be")
    return 0


if __name__ == "__main__":
    sys.exit(main())

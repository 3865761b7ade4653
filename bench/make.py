#!/usr/bin/env python3
"""Prints how long `scale make NUMBER SIZE PREFIX` takes, and how many bytes it stores: it makes a program with its files, rewrites it,
and simulates both. The best of three runs each; with 7 and 2,000 it should take at most 2 seconds.

With the word `assemble` it prints instead how long the assembler alone takes on as many lines as there may be, half of them labels in
descending order and half jumps to them, which should be at most 0.2 seconds. For that a program of a few lines over the library is
proved and built in a temporary folder, which takes some minutes.
"""

import os
import resource
import shutil
import subprocess
import sys
import tempfile
import time

from runs import SCALE, TOP, build

RUNS = [(0, 1), (7, 200), (7, 500), (7, 1000), (7, 2000), (2, 2000)]
STORED = ["elf", "machine", "loops", "input", "scaled"]
LIMITS = {(7, 2000): 2.0, (2, 2000): 2.0}
LINES = 131072
TIMES = 20
BELOW = ["scale_base", "cost_theory", "rv_decode", "rv_encode", "image_maker"]
PROGRAM = """\
//! Assembles lines so many times.
#![tactic(auto)]

use image_maker::{Line, assemble};
use scale_base::NoMemory;
use std::alloc::Global;

fn lines_of(alloc: Global) -> Result<Vec<Line>, NoMemory> {
    let mut lines = Vec::new(alloc);
    for k in 0..65_536 {
        lines.push(Line::Label(65_535 - k))?;
        lines.push(Line::JalTo {
            rd: 0,
            label: 65_535 - k,
        })?;
    }
    Ok(lines)
}

fn words_of(alloc: Global, times: u32) -> Result<usize, NoMemory> {
    let lines = lines_of(alloc)?;
    let mut words = 0_usize;
    if lines.len() <= 131_072 {
        for _ in 0..times {
            let assembled = assemble(alloc, &lines).ok().ok_or(NoMemory)?;
            words = words.wrapping_add(assembled.len());
        }
    }
    Ok(words)
}

fn main(rt: HostRuntime) -> std::io::Result<()> {
    match words_of(rt.alloc(), TIMES) {
        Ok(words) => println!(rt; "{words}"),
        Err(NoMemory) => println!(rt; "no memory"),
    }
}
"""


def best(command, folder):
    """The best time of three runs in seconds, and the last run."""
    times = []
    for _ in range(3):
        begin = time.perf_counter()
        done = subprocess.run(command, cwd=folder, capture_output=True)
        times.append(time.perf_counter() - begin)
    return min(times), done


def told(seconds, limit):
    return "" if limit is None else "   within %.1f s" % limit if seconds <= limit else "   OVER %.1f s" % limit


def measure_make():
    build()
    for number, size in RUNS:
        with tempfile.TemporaryDirectory() as folder:
            took, done = best([SCALE, "make", str(number), str(size), "p"], folder)
            paths = [os.path.join(folder, "p." + end) for end in STORED]
            sizes = ["%s %d" % (end, os.path.getsize(path)) for end, path in zip(STORED, paths) if os.path.exists(path)]
        memory = resource.getrusage(resource.RUSAGE_CHILDREN).ru_maxrss // 1024
        said = told(took, LIMITS.get((number, size)))
        print("make %d %-5d %7.3f s %5d MB   status %d   %s%s" % (number, size, took, memory, done.returncode, ", ".join(sizes), said))


def built(folder, times):
    """The program that assembles so many times."""
    crate = os.path.join(folder, "crates", "assemble_bench")
    if not os.path.exists(crate):
        subprocess.run(["git", "init", "-q", folder], check=True)
        for name in BELOW:
            for part in ["src", "specs", "proofs"]:
                given = os.path.join(TOP, "crates", name, part)
                if os.path.exists(given):
                    shutil.copytree(given, os.path.join(folder, "crates", name, part))
        with open(os.path.join(TOP, "crates.txt")) as file:
            listed = [line for line in file if line.split(":")[0] in BELOW]
        with open(os.path.join(folder, "crates.txt"), "w") as file:
            file.write("".join(listed) + "assemble_bench: image_maker rv_encode rv_decode cost_theory scale_base byteorder\n")
        os.makedirs(os.path.join(crate, "src"))
    with open(os.path.join(crate, "src", "main.rt"), "w") as file:
        file.write(PROGRAM.replace("TIMES", str(times)))
    done = subprocess.run(["rt", "run"], cwd=crate, capture_output=True)
    if done.returncode != 0:
        sys.exit((done.stdout + done.stderr).decode()[-3000:])
    return os.path.join(crate, "out", "assemble_bench")


def measure_assemble():
    with tempfile.TemporaryDirectory() as folder:
        once, _ = best([built(folder, 1)], folder)
        often, done = best([built(folder, 1 + TIMES)], folder)
    took = (often - once) / TIMES
    words = int(done.stdout) // (1 + TIMES)
    print("assemble %d lines, %d words %7.3f s%s" % (LINES, words, took, told(took, 0.2)))


def main():
    if sys.argv[1:] == ["assemble"]:
        measure_assemble()
    else:
        measure_make()


if __name__ == "__main__":
    main()

#!/usr/bin/env python3
"""Prints how much of loop files `pace loops` proves, on C programs that two compilers build at four levels, and tries each draft on runs.

    drafts.py [--pace PROGRAM] [--scale PROGRAM] [FOLDER ..]

Each FOLDER has one program in C, FOLDER/NAME.c, with inputs in FOLDER/inputs, FOLDER/samples or FOLDER/commands; without any, the examples are taken. What a folder
doesn't have, inputs or a machine, stands beside it, as in bench/programs: ten programs after which nothing was chosen. A folder without a program
is left out. gcc and clang build each at -O0, -O1, -O2 and -Os, with branches for switches. A row by compiler and level has how many loops there are, how many of
them have a proved bound, how many of these have least turns, and for how many those are the bound; how many images there are, how many drafts have nothing open, and in how many returns are proved. What isn't built or refused is told.

Each draft is filled in where loops are open (1000000000), and each input is run with it by `scale simulate`. Where a run breaks a drafted bound, or a return address
though returns are proved, that is told, and the status is 1.
"""

import argparse
import collections
import glob
import os
import re
import sys
import tempfile

from compilers import LEVELS, build, run
from runs import TOP

EXAMPLES = ("filter", "motor", "pid", "modbus", "codec", "median", "sparse", "fsm")


def source_of(folder):
    return next(iter(glob.glob(folder + "/*.c")), None)


def inputs_of(folder):
    found = glob.glob(folder + "/inputs/*") or glob.glob(folder + "/../inputs/*")
    return sorted(found) + [it for it in (folder + "/samples", folder + "/commands") if os.path.exists(it)]


class Rows:
    def __init__(self):
        self.rows, self.wrong = collections.defaultdict(collections.Counter), 0

    def tell(self, text):
        print(text, file=sys.stderr)

    def add(self, key, text, draft):
        with open(draft) as file:
            turns = re.findall(r"(?m)^bound = (\d+)\n(?:counted = true\n)?at_least = (\d+)$", file.read())
        numbers = {name: int(value) for name, value in re.findall(r"^(loops|proved|open|irreducible) (\d+)$", text, re.M)}
        row = self.rows[key]
        row["loops"] += numbers["loops"]
        row["proved"] += numbers["proved"]
        row["least"] += len(turns)
        row["exact"] += sum(most == least for most, least in turns)
        row["images"] += 1
        row["complete"] += numbers["open"] == 0 and numbers["irreducible"] == 0
        row["returns"] += "returns proved" in text

    def try_runs(self, scale, name, folder, image, draft, returns):
        """Runs each input with a draft whose open loops have the greatest bound."""
        with open(draft) as file:
            text = re.sub(r"(?m)^# no bound.*$", "bound = 1000000000", file.read())
        with open(draft, "w") as file:
            file.write(text)
        machine = (glob.glob(folder + "/machine.toml") + glob.glob(folder + "/../machine.toml"))[0]
        for given in inputs_of(folder):
            done = run(scale, "simulate", image, machine, given, image + ".out", draft)
            kept = re.search(r"^kept (.*)$", done.stdout, re.M)
            if not kept or kept[1].startswith("no bound") or (kept[1].startswith("no") and returns):
                self.wrong += 1
                self.tell(f"{name} on {given}: {kept[1] if kept else done.stdout + done.stderr}")

    def print(self):
        print("| compiler | level | loops | proved | `at_least` | as the bound | images | nothing open | returns proved |")
        print("|---|---|---|---|---|---|---|---|---|")
        for (compiler, level), row in [*self.rows.items(), (("both", "all"), sum(self.rows.values(), collections.Counter()))]:
            share = 100 * row["proved"] / max(row["loops"], 1)
            bounds = f"{row['loops']} | {row['proved']} ({share:.0f} %) | {row['least']} | {row['exact']}"
            print(f"| {compiler} | {level} | {bounds} | {row['images']} | {row['complete']} | {row['returns']} |")


def main():
    words = argparse.ArgumentParser(description=__doc__, formatter_class=argparse.RawDescriptionHelpFormatter)
    words.add_argument("--pace", default=f"{TOP}/pace")
    words.add_argument("--scale", default=f"{TOP}/scale")
    words.add_argument("folders", nargs="*", default=[f"{TOP}/examples/{name}" for name in EXAMPLES])
    given = words.parse_args()
    rows = Rows()
    with tempfile.TemporaryDirectory(prefix="scale-drafts-") as room:
        for compiler in ("gcc", "clang"):
            for level in LEVELS:
                for folder in filter(source_of, given.folders):
                    source = source_of(folder)
                    name, image = f"{os.path.basename(source)} by {compiler} {level}", os.path.join(room, "image")
                    if not build(compiler, level, source, image, "-fno-jump-tables"):
                        rows.tell(f"{name}: not built")
                        continue
                    drafted = run(given.pace, "loops", image, image + ".toml")
                    if drafted.returncode:
                        rows.tell(f"{name}: {drafted.stdout}{drafted.stderr}".rstrip())
                        continue
                    rows.add((compiler, level), drafted.stdout, image + ".toml")
                    rows.try_runs(given.scale, name, folder, image, image + ".toml", "returns proved" in drafted.stdout)
    rows.print()
    return 1 if rows.wrong else 0


if __name__ == "__main__":
    sys.exit(main())

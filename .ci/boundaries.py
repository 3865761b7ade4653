#!/usr/bin/env python3
"""Checks the boundaries of crates, and ends with 1 where one is crossed.

A crate cites of the proofs of another one the lemmas of `proofs/Laws.antt` alone. The clauses of a public function name no
field that is private to its crate.
"""

import re
import sys
from pathlib import Path

from clauses import clauses

ROOT = Path(__file__).resolve().parent.parent
CRATES = sorted(path.parent for path in (ROOT / "crates").glob("*/src"))
NAMES = {crate.name for crate in CRATES}

CITED = re.compile(r"Rattle\.(\w+)\.proofs\.(\w+)|\b(\w+)::proofs::(\w+)")
STRUCT = re.compile(r"struct (\w+)[^{;(]*\{([^}]*)\}")
FIELD = re.compile(r"^\s*(pub(?:\([^)]*\))? )?(\w+):", re.M)
RECORD_FIELD = re.compile(r"^\s+pub (\w+) :", re.M)
FUNCTION = re.compile(r"^( *)pub fn (\w+)((?:(?!\n *(?:pub )?fn ).)*?)\n\1\{", re.M | re.S)


def sources(crate, suffix):
    for folder in ("src", "specs", "proofs"):
        yield from sorted((crate / folder).rglob("*" + suffix))


def foreign_proofs(crate):
    for path in [*sources(crate, ".antt"), *sources(crate, ".rt")]:
        for found in CITED.finditer(path.read_text()):
            of, module = found.group(1) or found.group(3), found.group(2) or found.group(4)
            file = str(path.relative_to(ROOT))
            if of != crate.name and of in NAMES and module != "Laws":
                yield f"{file}: cites {module} of the proofs of {of}"


def fields():
    """The names of private fields, and those of public ones and of the fields of records."""
    private, public = set(), set()
    for crate in CRATES:
        for path in sources(crate, ".antt"):
            public.update(RECORD_FIELD.findall(path.read_text()))
        for path in sources(crate, ".rt"):
            for struct in STRUCT.finditer(path.read_text()):
                for visible, name in FIELD.findall(struct.group(2)):
                    (public if visible == "pub " else private).add(name)
    return private - public


def private_fields(crate, private):
    for path in sources(crate, ".rt"):
        for function in FUNCTION.finditer(path.read_text()):
            for clause in clauses(function.group(3)):
                for name in re.findall(r"\.([a-z_]\w*)", clause):
                    if name in private:
                        yield f"{path.relative_to(ROOT)}: a clause of {function.group(2)} names the private field {name}"


def main():
    private = fields()
    crossed = [line for crate in CRATES for line in private_fields(crate, private)]
    crossed += [line for crate in CRATES for line in foreign_proofs(crate)]
    for line in crossed:
        print(line)
    print(f"boundaries: {len(CRATES)} crates, {len(crossed)} crossed")
    return 1 if crossed else 0


if __name__ == "__main__":
    sys.exit(main())

#!/usr/bin/env python3
"""Checks that docs/DEFINITIONS.md lists every definition that a clause of `run_tool` cites, directly or through others, and no other one.

It checks, too, that a file of `specs/` begins with the word `Scaffold` where no clause of `run_tool` or `run_pace` cites it, and else doesn't.
With the word `write` it writes the list anew, behind its heading, and that word.
"""

import re
import sys
import textwrap
from pathlib import Path

from clauses import clauses

ROOT = Path(__file__).resolve().parent.parent
CRATES = ROOT / "crates"
PAGE = ROOT / "docs" / "DEFINITIONS.md"
TOP = CRATES / "scale_tool" / "src" / "tool.rt"
PACE = CRATES / "pace_tool" / "src" / "pace.rt"
HEADING = "## All names, by file\n"

USE = re.compile(r"^\s*(?:pub |ghost )*use (Rattle\.[^\s{]+?)(?:\.\{([^}]*)\}| as (\w+))?;?$", re.M)
START = re.compile(r"^(\s*)((?:(?:abbrev|unfoldable|pub|record|data) )+)([^\s:({]+)")
WORD = re.compile(r"(?<![\w.'])[A-Za-z_][\w'-]*(?:\.[A-Za-z_][\w'-]*)?")
CALL = re.compile(r"^pub fn (?:run_tool|run_pace)\b.*?^\{", re.M | re.S)
SCAFFOLD = "-- Scaffold: "


class File:
    """A file's imports, and the text of each of its definitions."""

    def __init__(self, path, comment):
        self.text = path.read_text()
        body = "\n".join(line.split(comment)[0] for line in self.text.split("\n"))
        self.body, self.names, self.modules = body, {}, {}
        for module, names, short in USE.findall(body):
            if short:
                self.modules[short] = module
            for name in filter(None, (part.strip() for part in names.split(","))):
                first, _, second = name.partition(" as ")
                self.names[second or first] = (module, first)
        self.parts, self.within, self.shared = {}, {}, ""
        self.read()

    def read(self):
        name, indent, kind = None, 0, ""
        for line in self.body.split("\n"):
            begins = START.match(line)
            if begins and not (kind in ("record", "data") and len(begins[1]) > indent):
                name, indent = begins[3], len(begins[1])
                kind = next((word for word in ("record", "data") if word in begins[2]), "")
                self.parts[name] = ""
            elif re.match(r"\s*(use|module) ", line):
                self.shared += line + "\n" if line.lstrip().startswith("module") else ""
                name, kind = None, ""
                continue
            if name:
                self.parts[name] += line + "\n"
                inner = re.match(r"\s+([A-Z]\w*) :", line)
                if kind == "data" and inner:
                    self.within[inner[1]] = name

    def cited(self, text):
        """The names that a text cites, with their modules; those of this file with None."""
        for word in WORD.findall(text):
            head, _, rest = word.partition(".")
            if head in self.names:
                yield self.names[head]
            elif head in self.modules and rest:
                yield self.modules[head], rest
            elif head in self.parts or head in self.within:
                yield None, self.within.get(head, head)
        for name, place in self.names.items():
            if "◌" in name and name.strip("◌") in text:
                yield place


FILES = {}


def file_of(module):
    """The file of a module of this repository's specs, if it is one."""
    if module not in FILES:
        path = CRATES.joinpath(*module.split(".")[1:]).with_suffix(".antt")
        FILES[module] = File(path, "--") if "specs" in path.parts and path.exists() else None
    return FILES[module]


def reached(path):
    """All definitions that the clauses of the top call of a file cite: pairs of module and name."""
    top = File(path, "//")
    todo = [place for text in clauses(CALL.search(top.body)[0]) for place in top.cited(text)]
    seen = set()
    while todo:
        module, name = todo.pop()
        file = file_of(module)
        if file is None:
            # The constructors of a data type are imported from the type's own module.
            above, _, kind = module.rpartition(".")
            if above and file_of(above):
                todo.append((above, kind))
            continue
        name = file.within.get(name, name)
        if name not in file.parts:
            if name in file.names:
                todo.append(file.names[name])
            continue
        if (module, name) not in seen:
            seen.add((module, name))
            todo += [(of or module, other) for of, other in file.cited(file.parts[name] + file.shared)]
    return seen


def wrapped(text):
    """A text in lines of the page's width."""
    return textwrap.fill(text, 110, break_long_words=False, break_on_hyphens=False)


def listed(found):
    """The list as it stands in the page."""
    lines = [HEADING, "Made by `.ci/definitions.py write`, which `.ci/run` checks: all that a clause of `run_tool` cites, directly or\nthrough others.\n"]
    for module in sorted({module for module, _ in found}):
        place = module.removeprefix("Rattle.").replace(".", "/") + ".antt"
        about = re.match(r"-- (.*)", file_of(module).text)
        names = [name for name in file_of(module).parts if (module, name) in found]
        lines.append(wrapped(f"**`{place}`** {about[1] if about else ''}") + "\n" + wrapped(", ".join(f"`{name}`" for name in names)) + "\n")
    return "\n".join(lines)


def scaffold(cited, write):
    """How many files of `specs/` no top call cites, and those of all files whose first line says otherwise, which `write` mends."""
    wrong, count = [], 0
    for path in sorted(CRATES.glob("*/specs/**/*.antt")):
        if path.name == "Lib.antt":
            continue
        text, meant = path.read_text(), path not in cited
        count += meant
        if text.startswith(SCAFFOLD) != meant:
            wrong.append(path)
            if write:
                about = text.removeprefix(SCAFFOLD).removeprefix("-- ")
                first = about[0].upper() if not meant else about[0] if about[1:2].isupper() else about[0].lower()
                path.write_text((SCAFFOLD if meant else "-- ") + first + about[1:])
    return count, wrong


def main():
    found = reached(TOP)
    write = sys.argv[1:] == ["write"]
    cited = {CRATES.joinpath(*module.split(".")[1:]).with_suffix(".antt") for module, _ in found | reached(PACE)}
    count, wrong = scaffold(cited, write)
    page = PAGE.read_text()
    before, _, now = page.partition(HEADING)
    meant = listed(found)
    if write:
        PAGE.write_text(before.rstrip("\n") + "\n\n" + meant)
        return 0
    good = HEADING + now == meant
    files = len({module for module, _ in found})
    print(f"definitions: {len(found)} in {files} files are cited by the top call; the page {'lists them' if good else 'differs'}")
    print(f"definitions: {count} files of specs/ are scaffold, which neither program's top call cites")
    for path in wrong:
        print(f"definitions: the first line of {path.relative_to(ROOT)} is wrong: definitions.py write")
    return 0 if good and not wrong else 1


if __name__ == "__main__":
    sys.exit(main())

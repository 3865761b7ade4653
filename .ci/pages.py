#!/usr/bin/env python3
"""Checks the pages of this repository, and ends with 1 where something is wrong.

    pages.py                        their links, their lines, and that each crate has its rows
    pages.py SCALE .. -- PACE ..    what these builds of `scale` and of `pace` print for the commands on them, too
    pages.py write [SCALE -- PACE]  draws the layers of the crates anew, and writes what is printed into the pages

Links: each leads to a file, and to a heading of it, that is there; the first page links every other one of the top and of docs/, and all other
pages are reached from it. Lines: at most 110 characters.

Commands: an indented block is one of commands where one of its lines calls `./scale`, `./pace` or a script of `tools/`, or its first begins with a word of
WORDS. The blocks of a page are run one after another, from a copy of the repository's folder in which `./scale` and `./pace` are these builds, with
an empty folder in place of /tmp; names that one sets hold for the rest of the page. What stands behind such a block says what must come of it:
- the next indented block is all that it prints, on standard output or standard error; where the text before that says "among others", its
  lines are printed in this order, among others;
- a text that begins with "print" or "prints" names printed lines between backquotes, up to its first stop;
- a table behind a text that ends with "print" has a column for each `./scale simulate` of the block: behind the names of a report's lines stand
  their values.
The status is 0, 1 where a refusal is printed, 7 where `check no` is, or what the text says. A block that needs a compiler or another program of NEEDS is left
out where that isn't there, and this is told.

Numbers: on the pages of FIGURES each number of four digits or more is one that some command of the pages prints, or one of LIMITS; and where a page
has an `(energy E)`, each `(F, -P %)` is an energy F that is P percent less.
"""

import os
import re
import shutil
import subprocess
import sys
import tempfile
import textwrap
from pathlib import Path

ROOT = Path(__file__).resolve().parent.parent
FIRST, DRAWN = "README.md", "docs/ARCHITECTURE.md"
WIDTH = 110
SECONDS = 120

WORDS = ("cat", "cmp", "cp", "dot", "echo", "for", "head", "ls", "mkdir", "printf", "rsvg-convert", "sed")
OWN = re.compile(r"(?:^| )(?:\./scale|\./pace|tools/\S+)(?: |$)")
SETS = re.compile(r"[a-z]\w*=(\"[^\"]*\"|\$\([^)]*\)|\S*)$")
# Programs that a block may need, each with the version that the pages speak of and with how a block shows that it needs it.
NEEDS = {
    "riscv64-unknown-elf-gcc": ("12.2.0", "riscv64-unknown-elf-gcc "),
    "clang": ("14.", "clang "),
    "parallel": ("", "PARALLEL_HOSTS"),
    "dot": ("", "dot -T"),
    "rsvg-convert": ("", "rsvg-convert "),
}
# A command line that shows words in capitals shows a form, and isn't run.
FORM = re.compile(r"\b(?:IMAGE|MACHINE|NUMBER|INPUTS|SCALE)\b")

FIGURES = ("README.md", "docs/TOUR.md", "docs/RESULTS.md")
LIMITS = {
    "131072", "8388608", "1048576", "4194304",  # of calls that are open, and of files
    "1000000000",  # of the bound of a loop
    "2001", "2026",  # years
}  # fmt: skip


def pages():
    """The pages, by their paths from the top."""
    found = [path.relative_to(ROOT) for path in ROOT.rglob("*.md")]
    return sorted(str(path) for path in found if not {"out", "build", ".git"} & set(path.parts))


def read(page):
    return (ROOT / page).read_text()


def without_code(text):
    """A text without its indented blocks and the insides of its code spans."""
    return re.sub(r"`[^`]*`", "``", re.sub(r"^    .*$", "", text, flags=re.M))


def slugs(text):
    """The names of a page's headings, as links name them.

    >>> sorted(slugs("# A page\\n\\n## `pace fit`, and more\\n\\n    # none\\n"))
    ['a-page', 'pace-fit-and-more']
    """
    heads = re.findall(r"^#+ (.*)$", text, re.M)
    return {re.sub(r" ", "-", re.sub(r"[^\w\- ]", "", head.lower())) for head in heads}


def links(page):
    """The links of a page: where each leads, with the heading."""
    for target in re.findall(r"\]\(([^)\s]*)\)", without_code(read(page))):
        place, _, heading = target.partition("#")
        path = os.path.normpath(os.path.join(os.path.dirname(page), place)) if place else page
        yield target, path, heading


def wrong_links(all_pages):
    """What is wrong of the links."""
    reached, todo = {FIRST}, [FIRST]
    for page in all_pages:
        for target, path, heading in links(page):
            if not (ROOT / path).exists():
                yield f"{page}: {target} leads to no file"
            elif heading and (path not in all_pages or heading not in slugs(read(path))):
                yield f"{page}: {target} leads to no heading"
    while todo:
        for _, path, _ in links(todo.pop()):
            if path in all_pages and path not in reached:
                reached.add(path)
                todo.append(path)
    first = {path for _, path, _ in links(FIRST)}
    for page in all_pages:
        if page not in reached:
            yield f"{page}: no link leads to it from {FIRST}"
        elif os.path.dirname(page) in ("", "docs") and page != FIRST and page not in first:
            yield f"{page}: {FIRST} doesn't link it"


def wrong_lines(page):
    """What is wrong of a page's lines."""
    for number, line in enumerate(read(page).split("\n"), 1):
        if len(line) > WIDTH:
            yield f"{page}:{number}: {len(line)} characters"
        if line != line.rstrip() or "\t" in line:
            yield f"{page}:{number}: blanks at its end, or a tab"
        if line.startswith("```"):
            yield f"{page}:{number}: a fence; blocks are indented"


def crate_lines():
    """The lines of crates.txt: a heading's text, or a crate with what it uses."""
    for line in (ROOT / "crates.txt").read_text().split("\n")[1:]:
        if line.startswith("# "):
            yield line[2:], None
        elif line:
            crate, _, uses = line.partition(":")
            yield crate, uses.split()


def wrong_crates():
    """What is wrong of the lists of crates on the pages."""
    listed = [*crate_lines()]
    crates = {crate: uses for crate, uses in listed if uses is not None}
    for page, row, names in (
        ("docs/ARCHITECTURE.md", r"^- \*\*`(\w+)`\*\*|^### (.*)", [name for name, _ in listed]),
        ("docs/PROVED.md", r"^#### (\w+)|^### (.*)", [name for name, uses in listed if not name.endswith("_tests") and not name.startswith("Tests over")]),
    ):
        part = read(page).partition("\n## The crates\n" if "ARCH" in page else "\n## By layer\n")[2].partition("\n## ")[0]
        found = [one or other for one, other in re.findall(row, part, re.M)]
        for at, (name, there) in enumerate(zip([*names, "the end"], [*found, "the end"])):
            if name != there:
                yield f"{page}: {there} stands where {name} should, as in crates.txt"
                break
        else:
            if len(names) != len(found):
                yield f"{page}: not the crates of crates.txt"
    below, todo = set(), ["scale_tool"]
    while todo:
        crate = todo.pop()
        if crate in crates and crate not in below:
            below.add(crate)
            todo += crates[crate]
    for page in pages():
        for number in re.findall(r"of (\d+) crates proved", read(page)):
            if int(number) != len(below):
                yield f"{page}: scale is built of {len(below)} crates, not of {number}"


def is_of_laws(crate):
    """Whether a crate has laws alone: functions with empty bodies."""
    code = "".join(path.read_text() for path in sorted((ROOT / "crates" / crate / "src").rglob("*.rt")))
    return not crate.endswith("_tests") and bool(re.search(r"\bfn ", code)) and not re.search(r"^\s*\{\n(?!\s*\})", code, re.M)


def layers():
    """The drawing of the layers: each crate in the line below all that it uses, with a star for laws alone."""
    crates = {crate: uses for crate, uses in crate_lines() if uses is not None}
    level = {}

    def level_of(crate):
        if crate not in level:
            level[crate] = 1 + max((level_of(use) for use in crates[crate] if use in crates), default=0)
        return level[crate]

    lines = []
    for number in range(1, 1 + max(map(level_of, crates))):
        names = [crate + "*" * is_of_laws(crate) for crate in crates if level[crate] == number]
        lines += textwrap.wrap(f"{number:2}  " + "  ".join(names), WIDTH - 4, subsequent_indent="    ", drop_whitespace=True, break_long_words=False)
    return lines


def drawing():
    """The place of the drawing on its page, and the page's lines."""
    lines = read(DRAWN).split("\n")
    begin = next(number for number, line in enumerate(lines) if re.match(r"     ?1  \w", line))
    end = next(number for number in range(begin, len(lines)) if not lines[number])
    return begin, end, lines


def wrong_layers(anew):
    """What is wrong of the drawing of the layers."""
    begin, end, lines = drawing()
    meant = ["    " + line for line in layers()]
    if anew:
        (ROOT / DRAWN).write_text("\n".join(lines[:begin] + meant + lines[end:]))
    elif lines[begin:end] != meant:
        yield f"{DRAWN}: the layers are drawn otherwise than crates.txt has them; `python3 .ci/pages.py write` draws them"


def parts(text):
    """The parts of a page: ("block", lines of an indented one), ("table", its rows), ("head", a heading) or ("text", any other), each with where it begins."""
    found, lines = [], text.split("\n")
    for number, line in enumerate(lines):
        kind = "block" if line.startswith("    ") else "table" if line.startswith("|") else "head" if line.startswith("#") else "text"
        if not line.strip():
            continue
        before = lines[number - 1].strip() if number else ""
        if found and found[-1][0] == kind and (before or kind == "block") and kind != "head":
            found[-1][1].extend([""] * (number - found[-1][2] - len(found[-1][1])) + [line])
        else:
            found.append((kind, [line], number))
    return [(kind, textwrap.dedent("\n".join(part)).split("\n"), number, len(part)) for kind, part, number in found]


def is_command(part):
    """Whether a part is a block of commands."""
    kind, lines = part[0], part[1]
    if kind != "block" or any(FORM.search(line) for line in lines):
        return False
    own = any(OWN.search(line) for line in lines)
    return own or lines[0].split()[0] in WORDS or bool(SETS.match(lines[0]))


class Step:
    """A block of commands, and what stands behind it."""

    def __init__(self, lines):
        self.lines, self.wanted, self.among, self.at = joined(lines), None, False, None
        self.named, self.table, self.text = [], None, ""


def joined(lines):
    """Command lines, where one that ends with a backslash goes on in the next.

    >>> joined(["a \\\\", "    b", "c"])
    ['a b', 'c']
    """
    return [re.sub(r"\\\n\s*", "", line) for line in re.split(r"(?<!\\)\n", "\n".join(lines))]


def steps(text):
    """The blocks of commands of a page, with what must come of them."""
    found, fresh = [], False
    for part in parts(text):
        kind, lines, number, length = part
        step = found[-1] if found else None
        if is_command(part):
            found.append(Step(lines))
            fresh = True
        elif kind == "head":
            fresh = False
        elif kind == "text" and step and fresh:
            said = " ".join(lines)
            if not step.text and re.match(r"(and )?prints? ", said):
                step.named = re.findall(r"`([^`]+)`", re.split(r"[.;:](?: |$)", said)[0])
            step.text += said + "\n"
        elif kind == "block" and step and fresh:
            step.wanted, step.at, fresh = lines, (number, length), False
            step.among = "among others" in step.text
        elif kind == "table" and step and fresh and step.text.rstrip().endswith("print"):
            step.table, fresh = lines, False
    return found


def report_of(text):
    """The lines of a report by their names."""
    return dict(line.split(" ", 1) for line in text.splitlines() if " " in line)


class Room:
    """A folder in which the commands of a page are run."""

    def __init__(self, folder, scale, pace):
        self.top, self.free = os.path.join(folder, "top"), os.path.join(folder, "tmp")
        os.mkdir(self.top)
        os.mkdir(self.free)
        self.scale, self.sets = scale, []
        for name in os.listdir(ROOT):
            if name not in ("scale", "pace"):
                os.symlink(ROOT / name, os.path.join(self.top, name))
        os.symlink(scale, os.path.join(self.top, "scale"))
        os.symlink(pace, os.path.join(self.top, "pace"))

    def run(self, line):
        """What a command line prints, and its status."""
        if SETS.match(line):
            self.sets.append(line)
            return "", 0
        script = "\n".join([*self.sets, line]).replace("/tmp/", self.free + "/")
        how = {"stdin": subprocess.DEVNULL, "stdout": subprocess.PIPE, "stderr": subprocess.STDOUT, "timeout": SECONDS}
        done = subprocess.run(["bash", "-c", script], cwd=self.top, env={**os.environ, "SCALE": self.scale}, **how)
        return done.stdout.decode(errors="backslashreplace").replace(self.free + "/", "/tmp/"), done.returncode

    def missing(self, lines):
        """The program that a block needs and that isn't there, if so."""
        words = "\n".join(self.sets + lines)
        uses = "\n".join(lines) + "".join(value for name, value in re.findall(r"^(\w+)=(.*)$", words, re.M) if "$" + name in "\n".join(lines))
        for name, (version, shown) in NEEDS.items():
            if shown in uses and not has(name, version):
                return name + (" " + version if version else "")
        return None


def has(name, version):
    """Whether a program is there, in that version."""
    if not shutil.which(name):
        return False
    if not version:
        return True
    told = subprocess.run([name, "--version"], stdout=subprocess.PIPE, stderr=subprocess.STDOUT, text=True).stdout
    return re.search(rf"(?<![\d.]){re.escape(version)}", told) is not None


def is_within(wanted, printed):
    """Whether lines stand among others in this order."""
    rest = iter(printed)
    return all(line in rest for line in wanted)


def wrong_table(rows, outputs):
    """What is wrong of a table, a column for each run."""
    runs = [report_of(text) for line, text in outputs if line.startswith("./scale simulate")]
    for row in rows[2:]:
        first, *cells = [cell.strip() for cell in row.strip("|").split("|")]
        names = re.findall(r"`(\w+)`", first)
        if len(cells) != len(runs):
            yield f"a table has {len(cells)} columns, and there are {len(runs)} runs"
            return
        for run, cell in zip(runs, cells):
            wanted = ", ".join(run.get(name, "nothing") for name in names)
            if cell != wanted:
                yield f"{first}: {wanted} is printed, and not {cell}"


def wrong_step(step, outputs, status):
    """What is wrong of what a block printed."""
    text = "".join(output for _, output in outputs)
    printed = text.splitlines()
    if step.wanted is not None and not (is_within(step.wanted, printed) if step.among else step.wanted == printed):
        yield "prints\n" + textwrap.indent(text, "    ") + "  and not" + (", among others," if step.among else "") + "\n" + textwrap.indent("\n".join(step.wanted), "    ")
    for line in step.named:
        if line not in printed:
            yield f"doesn't print the line {line}, but\n" + textwrap.indent(text, "    ")
    if step.table:
        yield from wrong_table(step.table, outputs)
    meant = {int(number) for number in re.findall(r"status (?:is )?(\d)\b", step.text)}
    usual = 1 if text.startswith("refused ") else 7 if text.startswith("check no ") else 0
    if status not in meant | {usual}:
        yield f"ends with the status {status}"


def written(page, found):
    """Writes into a page what its blocks printed. The last block first, so that the places of the others stay."""
    lines = read(page).split("\n")
    for step, printed in reversed(found):
        if step.wanted is not None and not step.among:
            number, length = step.at
            lines[number : number + length] = ["    " + line if line else "" for line in printed]
    (ROOT / page).write_text("\n".join(lines))


def run_page(page, scale, pace, said, anew):
    """Runs the commands of a page; gives what is wrong, and tells what was left out. What is printed is added to `said`."""
    found = []
    with tempfile.TemporaryDirectory(prefix="scale-pages-") as folder:
        room = Room(folder, scale, pace)
        for step in steps(read(page)):
            name = room.missing(step.lines)
            if name:
                print(f"pages: {page}: left out, for want of {name}: {step.lines[0]} ..")
                continue
            outputs, status = [], 0
            for line in step.lines:
                try:
                    text, status = room.run(line)
                except subprocess.TimeoutExpired:
                    yield f"{page}: {line}\n  runs for more than {SECONDS} seconds"
                    continue
                outputs.append((line, text))
                said.append(text)
            found.append((step, "".join(text for _, text in outputs).splitlines()))
            for wrong in wrong_step(step, outputs, status):
                yield f"{page}: {step.lines[-1]}\n  {wrong}"
    if anew:
        written(page, found)


def wrong_figures(page, said):
    """The numbers of a page that nothing prints, and what is wrong of its percents."""
    shown = "\n".join(said)
    numbers = set(re.findall(r"\d+", shown)) | LIMITS
    text = "\n".join(line for line in re.sub(r"\]\([^)]*\)", "]", read(page)).split("\n") if not (line.startswith("    ") and is_command(("block", [line.strip()]))))
    for number in sorted(set(re.findall(r"(?<![\w.,^-])\d[\d,]{3,}(?![\w^])", text))):
        if number.rstrip(",").replace(",", "") not in numbers:
            yield f"{page}: no command prints {number.rstrip(',')}"
    flowing = " ".join(text.split())
    first = re.search(r"\(energy (\d+)\)", flowing)
    for energy, less in re.findall(r"\((\d+), -(\d+) %\)", flowing) if first else ():
        if int(less) != round(100 - 100 * int(energy) / int(first[1])):
            yield f"{page}: energy {energy} isn't {less} percent less than {first[1]}"


def main():
    words = sys.argv[1:]
    anew = words[:1] == ["write"]
    middle = words.index("--") if "--" in words else len(words)
    scales, paces = ([os.path.abspath(word) for word in part] for part in (words[anew:middle], words[middle + 1 :]))
    all_pages = pages()
    wrong = [*wrong_layers(anew), *wrong_links(all_pages), *wrong_crates()]
    wrong += [line for page in all_pages for line in wrong_lines(page)]
    count = 0
    for scale, pace in zip(scales, paces):
        said = []
        for page in all_pages:
            wrong += run_page(page, scale, pace, said, anew)
            count += len(steps(read(page)))
        wrong += [line for page in FIGURES for line in wrong_figures(page, said)]
    ran = f", {count} blocks of commands" if scales else ""
    print("\n".join([*wrong, f"pages: {len(all_pages)}{ran}, {'and not all as it should be' if wrong else 'all as it should be'}"]))
    return 1 if wrong else 0


if __name__ == "__main__":
    sys.exit(main())

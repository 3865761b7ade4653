#!/usr/bin/env python3
"""Tests the scripts of this folder that read the repository, on a small tree of their own with something wrong in each place."""

import shutil
import subprocess
import sys
import tempfile
import unittest
from pathlib import Path

HERE = Path(__file__).resolve().parent

PAIRS = """pub struct Pair {
    pub open: u32,
    hidden: u32,
    deep: u32,
    last: u32,
}

/// A clause of one line, and a field that everyone may name.
pub fn short(pair: &Pair) -> u32
    requires open { pair.now.open ≡ 1 }
    ensures { result ≡ pair.now.hidden }
{
    pair.hidden
}

/// Clauses of several lines, with braces in them, and one behind them.
pub fn long(pair: &Pair) -> u32
    requires { record { one = 1; two = 2 } ≡ other →
        // A comment with a brace: {
        record {
            one = pair.now.deep;
            two = 2;
        } ≡ other }
    ensures result { result ≡
        pair.now.open }
    ensures last { pair.now.last ≡ 1 }
{
    pair.open
}

/// Of a private function a clause may name any field.
fn within(pair: &Pair) -> u32
    ensures { result ≡
        pair.now.hidden }
{
    pair.hidden
}
"""

WORDS = """-- The words of the top call.
use Rattle.low.specs.Numbers.{IsSmall}

pub IsOne : ℕ → 𝒰
IsOne n = n ≡ 1

pub IsTwo : ℕ → 𝒰
IsTwo n =
    (n ≡ 2) ×
    IsSmall n

pub IsThree : ℕ → 𝒰
IsThree n = n ≡ 3

pub IsFour : ℕ → 𝒰
IsFour n = n ≡ 4
"""

SIZES = """-- Sizes of the second program.
pub IsLarge : ℕ → 𝒰
IsLarge n = 100 ≤ n
"""

SECOND = """//! The second top call.

ghost use Rattle.low.specs.Sizes.{IsLarge};

pub fn run_pace() -> u8
    ensures { IsLarge result }
{
    100
}
"""

NUMBERS = """-- Small numbers.
pub IsSmall : ℕ → 𝒰
IsSmall n = n < 10

pub IsGreat : ℕ → 𝒰
IsGreat n = 10 ≤ n
"""

TOOL = """//! The top call.

ghost use Rattle.low.specs.Words.{IsOne, IsTwo, IsThree, IsFour};

/// A clause of another function.
fn other() -> u8
    ensures { IsFour result }
{
    4
}

pub fn run_tool() -> u8
    ensures one { IsOne result }

    // IsFour is said by a comment alone.
    ensures two { result ≢ 1 →
        IsTwo result → record {
            three = IsThree;
        } ≡ all }
{
    1
}
"""


class Tree(unittest.TestCase):
    """A repository of some files, with the scripts."""

    def setUp(self):
        self.root = Path(tempfile.mkdtemp(prefix="scripts-"))
        self.addCleanup(shutil.rmtree, self.root)
        (self.root / ".ci").mkdir()
        for script in HERE.glob("*.py"):
            shutil.copy(script, self.root / ".ci")

    def write(self, path, text):
        file = self.root / path
        file.parent.mkdir(parents=True, exist_ok=True)
        file.write_text(text)

    def run_script(self, name, *words):
        """What a script prints, by lines, and its status."""
        done = subprocess.run([sys.executable, self.root / ".ci" / name, *words], stdout=subprocess.PIPE, stderr=subprocess.STDOUT, text=True)
        return done.stdout.splitlines(), done.returncode


class Boundaries(Tree):
    def test_private_fields_in_clauses_of_one_line_and_of_several(self):
        self.write("crates/low/src/lib.rt", PAIRS)
        told = [
            "crates/low/src/lib.rt: a clause of short names the private field hidden",
            "crates/low/src/lib.rt: a clause of long names the private field deep",
            "crates/low/src/lib.rt: a clause of long names the private field last",
            "boundaries: 1 crates, 3 crossed",
        ]
        self.assertEqual(self.run_script("boundaries.py"), (told, 1))

    def test_proofs_of_another_crate(self):
        self.write("crates/low/src/lib.rt", "#[tactic(auto, using(low::proofs::Own::fact))]\nfn own() {}\n")
        self.write("crates/high/src/lib.rt", "#[tactic(auto, using(low::proofs::Own::fact))]\nfn one() {}\n")
        self.write("crates/high/proofs/one/Answers.antt", "use Rattle.low.proofs.Laws.{law}\nuse Rattle.low.proofs.Inner.{fact}\n")
        told = [
            "crates/high/proofs/one/Answers.antt: cites Inner of the proofs of low",
            "crates/high/src/lib.rt: cites Own of the proofs of low",
            "boundaries: 2 crates, 2 crossed",
        ]
        self.assertEqual(self.run_script("boundaries.py"), (told, 1))

    def test_nothing_crossed(self):
        self.write("crates/low/src/lib.rt", PAIRS.replace("now.hidden", "now.open").replace("now.deep", "now.open").replace("now.last", "now.open"))
        self.assertEqual(self.run_script("boundaries.py"), (["boundaries: 1 crates, 0 crossed"], 0))


class Definitions(Tree):
    PAGE = "docs/DEFINITIONS.md"
    SCAFFOLD = "definitions: %d files of specs/ are scaffold, which neither program's top call cites"

    def setUp(self):
        super().setUp()
        self.write("crates/scale_tool/src/tool.rt", TOOL)
        self.write("crates/pace_tool/src/pace.rt", SECOND)
        self.write("crates/low/specs/Sizes.antt", SIZES)
        self.write("crates/low/specs/Words.antt", WORDS)
        self.write("crates/low/specs/Numbers.antt", NUMBERS)
        self.write(self.PAGE, "# Definitions\n")
        self.run_script("definitions.py", "write")

    def test_names_of_all_lines_of_a_clause_are_listed(self):
        page = (self.root / self.PAGE).read_text()
        self.assertIn("**`low/specs/Words.antt`** The words of the top call.\n`IsOne`, `IsTwo`, `IsThree`\n", page)
        self.assertIn("**`low/specs/Numbers.antt`** Small numbers.\n`IsSmall`\n", page)
        told = ["definitions: 4 in 2 files are cited by the top call; the page lists them", self.SCAFFOLD % 0]
        self.assertEqual(self.run_script("definitions.py"), (told, 0))

    def test_a_page_that_differs(self):
        told = ["definitions: 4 in 2 files are cited by the top call; the page differs", self.SCAFFOLD % 0]
        page = (self.root / self.PAGE).read_text()
        for other in (page.replace(", `IsThree`", ""), page.replace("`IsThree`", "`IsThree`, `IsFour`")):
            self.write(self.PAGE, other)
            self.assertEqual(self.run_script("definitions.py"), (told, 1))

    def test_scaffold_says_so(self):
        self.write("crates/low/specs/Steps.antt", "-- What steps are.\npub IsStep : ℕ → 𝒰\nIsStep n = n ≡ 0\n")
        self.write("crates/low/specs/Sizes.antt", "-- Scaffold: sizes of the second program.\n" + SIZES.partition("\n")[2])
        told = [
            "definitions: 4 in 2 files are cited by the top call; the page lists them",
            self.SCAFFOLD % 1,
            "definitions: the first line of crates/low/specs/Sizes.antt is wrong: definitions.py write",
            "definitions: the first line of crates/low/specs/Steps.antt is wrong: definitions.py write",
        ]
        self.assertEqual(self.run_script("definitions.py"), (told, 1))
        self.run_script("definitions.py", "write")
        self.assertEqual(self.run_script("definitions.py"), (told[:2], 0))
        self.assertEqual((self.root / "crates/low/specs/Steps.antt").read_text().partition("\n")[0], "-- Scaffold: what steps are.")
        self.assertEqual((self.root / "crates/low/specs/Sizes.antt").read_text().partition("\n")[0], "-- Sizes of the second program.")


class Edits(Tree):
    def setUp(self):
        super().setUp()
        self.write("crates/low/src/lib.rt", "fn one() {\n    a + b + b\n}\n")

    def edit(self, path, old, new="c", file="src/lib.rt"):
        self.write(f"crates/low/{path}.edit", f"file: {file}\nold: {old}\nnew: {new}\n")

    def test_all_apply(self):
        self.edit("must-fail/first", "a + b")
        self.edit("more-edits/second", "b + b")
        self.write("crates/low/more-edits/two_pairs.edit", "file: src/lib.rt\nold: a\nnew: b + c\nold: c\nnew: d\n")
        self.assertEqual(self.run_script("edits.py"), (["edits: 1 tried by rt ci, 2 beside it, all apply"], 0))

    def test_those_that_do_not_apply(self):
        self.edit("must-fail/absent", "d")
        self.edit("must-fail/file", "a", file="src/other.rt")
        self.edit("more-edits/twice", "+ b")
        self.edit("must-fail/same", "a")
        self.edit("more-edits/same", "a")
        self.write("crates/low/more-edits/without.edit", "file: src/lib.rt\n")
        told = [
            "crates/low/must-fail/absent.edit: an 'old:' text stands 0 times in src/lib.rt",
            "crates/low/must-fail/file.edit: there is no file src/other.rt",
            "crates/low/more-edits/same.edit: must-fail/ has one of that name",
            "crates/low/more-edits/twice.edit: an 'old:' text stands 2 times in src/lib.rt",
            "crates/low/more-edits/without.edit: it has no 'old:' and 'new:' pair",
            "edits: 3 tried by rt ci, 3 beside it, 5 do not apply",
        ]
        self.assertEqual(self.run_script("edits.py"), (told, 1))

    def test_too_many_for_the_gate(self):
        for number in range(5):
            self.edit(f"must-fail/edit_{number}", "a")
        told = ["crates/low: 5 edits stand in must-fail/, and at most 4 may", "edits: 5 tried by rt ci, 0 beside it, all apply"]
        self.assertEqual(self.run_script("edits.py"), (told, 1))

PAGE = """# A page

Text with [a link](docs/OTHER.md#a-part-of-it).

    x=out/
    ./scale store ${x}name /tmp/stored

prints

    stored name

Another one:

    cat /tmp/stored
    ./pace tell

prints, among others,

    one
    three

What is refused:

    ./scale fail

prints `refused 3 it`, with status 1.

    ./scale simulate 1
    ./scale simulate 2

print

| | first | second |
|---|---|---|
| `time`, of 9 | 1 | 2 |
| `energy`, `level` | 10, 1 | 20, 2 |
"""

OTHER = """# Another page

## A part of it

[Back](../README.md), to [the decisions](ARCHITECTURE.md), [the proofs](PROVED.md).

    ./scale IMAGE is a form, and isn't run
"""

LISTED = "# Each line names a crate\n\n# Low ones\nlow:\nscale_tool: low\n"
CRATES = "# Architecture\n\n     1  low\n     2  scale_tool\n\n## The crates\n\n### Low ones\n\n- **`low`**: a.\n- **`scale_tool`**: b.\n"
PROVED = "# Proved\n\n## By layer\n\n### Low ones\n\n#### low\n\n#### scale_tool\n\nscale: 1 of 2 crates proved\n"

SCALE = """#!/bin/sh
case $1 in
    store) echo "$2" | sed "s,^out/,stored ," | tee "$3" ;;
    fail) echo refused 3 it; exit 1 ;;
    simulate) printf "time %s\\nenergy %s\\nlevel %s\\n" "$2" "${2}0" "$2" ;;
esac
"""
PACE = "#!/bin/sh\nprintf 'one\\ntwo\\nthree\\n'\n"


class Pages(Tree):
    def setUp(self):
        super().setUp()
        for path, text in {
            "README.md": PAGE + "\n[All](docs/OTHER.md) [crates](docs/ARCHITECTURE.md) [proofs](docs/PROVED.md)\n[tour](docs/TOUR.md) [results](docs/RESULTS.md)\n",
            "docs/OTHER.md": OTHER,
            "docs/ARCHITECTURE.md": CRATES,
            "docs/PROVED.md": PROVED,
            "docs/TOUR.md": "# Tour\n",
            "docs/RESULTS.md": "# Results\n",
            "crates.txt": LISTED,
            "crates/low/src/lib.rt": "fn one()\n{\n    a\n}\n",
            "crates/scale_tool/src/lib.rt": "fn one()\n{\n    a\n}\n",
            "built/scale": SCALE,
            "built/pace": PACE,
        }.items():
            self.write(path, text)
        for name in ("scale", "pace"):
            (self.root / "built" / name).chmod(0o755)
        self.built = [self.root / "built" / "scale", "--", self.root / "built" / "pace"]

    def change(self, path, old, new):
        text = (self.root / path).read_text()
        self.assertIn(old, text)
        self.write(path, text.replace(old, new))

    def told(self, *words):
        lines, status = self.run_script("pages.py", *words)
        self.assertEqual(status, 1 if lines[-1].endswith("not all as it should be") else 0)
        return "\n".join(lines)

    def ran(self):
        return self.told(*self.built)

    def test_right(self):
        self.assertEqual(self.told(), "pages: 6, all as it should be")
        self.assertEqual(self.ran(), "pages: 6, 4 blocks of commands, all as it should be")

    def test_links(self):
        self.change("docs/OTHER.md", "(../README.md)", "(README.md)")
        self.change("README.md", "#a-part-of-it", "#a-part")
        self.change("README.md", "[proofs](docs/PROVED.md)", "")
        self.write("docs/LONE.md", "# Lone\n")
        told = self.told()
        for line in (
            "docs/OTHER.md: README.md leads to no file",
            "README.md: docs/OTHER.md#a-part leads to no heading",
            "docs/LONE.md: no link leads to it from README.md",
            "docs/PROVED.md: README.md doesn't link it",
        ):
            self.assertIn(line + "\n", told)

    def test_lines_and_crates(self):
        self.change("docs/OTHER.md", "# Another", "# An" + 110 * "o" + "ther")
        self.change("docs/ARCHITECTURE.md", "- **`low`**: a.\n", "")
        self.change("docs/ARCHITECTURE.md", "2  scale_tool", "2  low")
        self.change("docs/PROVED.md", "of 2 crates", "of 3 crates")
        told = self.told()
        for line in (
            "docs/OTHER.md:1: 123 characters",
            "docs/ARCHITECTURE.md: scale_tool stands where low should, as in crates.txt",
            "docs/PROVED.md: scale is built of 2 crates, not of 3",
            "docs/ARCHITECTURE.md: the layers are drawn otherwise than crates.txt has them; `python3 .ci/pages.py write` draws them",
        ):
            self.assertIn(line + "\n", told)

    def test_what_is_printed(self):
        for old, new, line in (
            ("    stored name\n", "    stored it\n", "and not\n    stored it"),
            ("    one\n    three\n", "    three\n    one\n", "and not, among others,\n    three"),
            ("`refused 3 it`", "`refused 4 it`", "doesn't print the line refused 4 it"),
            ("20, 2 |", "20, 3 |", "`energy`, `level`: 20, 2 is printed, and not 20, 3"),
            ("./scale fail", "./scale fail; exit 9", "ends with the status 9"),
            ("# A page", "# A page of 54321", "README.md: no command prints 54321"),
        ):
            kept = (self.root / "README.md").read_text()
            self.change("README.md", old, new)
            self.assertIn(line, self.ran())
            self.write("README.md", kept)

    def test_writing(self):
        kept = (self.root / "README.md").read_text()
        self.change("README.md", "    stored name\n", "    stored it\n    twice\n")
        self.told("write", *self.built)
        self.assertEqual((self.root / "README.md").read_text(), kept)


if __name__ == "__main__":
    unittest.main()

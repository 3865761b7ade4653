#!/usr/bin/env python3
"""Checks that each wrong body can be applied, and ends with 1 where one can't: those of `must-fail/`, which `rt ci` tries, and those of
`more-edits/`, which `tools/more_edits.py` tries. A crate has at most four of the first kind, and no name twice.

Each `old:` text stands exactly once in the file that the `file:` line before it names, as the pairs above have made that file.
"""

import sys
from collections import Counter
from pathlib import Path

ROOT = Path(__file__).resolve().parent.parent
GATE, MORE, MOST = "must-fail", "more-edits", 4


def why_not(edit):
    """Why an edit can't be applied, or tried under its name, if so."""
    crate, path, old, texts, pairs = edit.parent.parent, "", "", {}, 0
    if edit.parent.name == MORE and (crate / GATE / edit.name).exists():
        return f"{GATE}/ has one of that name"
    for line in edit.read_text().split("\n"):
        if line.startswith("file: "):
            path = line.removeprefix("file: ").strip()
            if not path.startswith(("src/", "specs/", "proofs/")) or not (crate / path).is_file():
                return f"there is no file {path}"
            texts.setdefault(path, (crate / path).read_text())
        elif line.startswith("old: "):
            old = line.removeprefix("old: ")
        elif line.startswith("new:"):
            if not path or not old:
                return "a 'new:' line stands before any 'file:' or 'old:' line"
            found = texts[path].count(old)
            if found != 1:
                return f"an 'old:' text stands {found} times in {path}"
            texts[path] = texts[path].replace(old, line.removeprefix("new:").removeprefix(" "))
            old, pairs = "", pairs + 1
    return None if pairs else "it has no 'old:' and 'new:' pair"


def crowded(tried):
    """The crates that have too many edits for the gate."""
    for crate, count in sorted(Counter(edit.parent.parent for edit in tried).items()):
        if count > MOST:
            yield f"{crate.relative_to(ROOT)}: {count} edits stand in {GATE}/, and at most {MOST} may"


def main():
    tried, beside = [sorted(ROOT.glob(f"crates/*/{name}/*.edit")) for name in (GATE, MORE)]
    bad = [f"{edit.relative_to(ROOT)}: {why}" for edit in tried + beside if (why := why_not(edit))]
    full = [*crowded(tried)]
    for line in bad + full:
        print(line)
    print(f"edits: {len(tried)} tried by rt ci, {len(beside)} beside it, {f'{len(bad)} do not apply' if bad else 'all apply'}")
    return 1 if bad or full else 0


if __name__ == "__main__":
    sys.exit(main())

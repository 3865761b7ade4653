"""What the scripts of this folder share: the clauses of a function, of one line or of several."""

import re

BEGIN = re.compile(r"^\s*(?:requires|ensures)\b[^{\n]*\{", re.M)
BRACE = re.compile(r"[{}]")
COMMENT = re.compile(r"//.*")


def clauses(text):
    """The texts of the clauses in a text, each from its brace to the one that closes it."""
    text = COMMENT.sub("", text)
    for begin in BEGIN.finditer(text):
        depth = 1
        for brace in BRACE.finditer(text, begin.end()):
            depth += 1 if brace[0] == "{" else -1
            if depth == 0:
                yield text[begin.end() : brace.start()]
                break

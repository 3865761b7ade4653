#!/usr/bin/env python3
"""Checks the manual page and the completions for shells, and ends with 1 where something is wrong.

The manual page has the words of each command of `scale help`, as crates/scale_tool/cases/words.txt has them, and those of `pace`, as
docs/COMMANDS.md has them; `man` shows it without a warning. Each completion is run by its shell, in a folder with a few files: it gives
the commands, for each word of each command the files that may stand there, and its options behind two hyphens.

What a shell or `man` isn't there for is left out, and this is told.
"""

import itertools
import os
import re
import shutil
import subprocess
import sys
import tempfile
from pathlib import Path

ROOT = Path(__file__).resolve().parent.parent
PAGE = ROOT / "docs" / "scale.1"
COMPLETIONS = ROOT / "tools" / "completions"
SECONDS = 240

TABLES, NUMBERS = {"MACHINE", "LOOPS", "JUMPS"}, {"NUMBER", "SIZE"}
FILES, FOLDER = ["a.elf", "l.toml", "m.toml"], "sub"

BASH = """source "$1"
while IFS= read -r line; do
    COMP_WORDS=($line)
    case $line in *" ") COMP_WORDS+=("") ;; esac
    COMP_CWORD=$((${#COMP_WORDS[@]} - 1))
    _scale
    printf '= %s\\n' "$line"
    printf '%s\\n' "${COMPREPLY[@]}"
done
"""

FISH = """source $argv[1]
while read -l line
    echo "= $line"
    complete -C $line | string replace -r '\\t.*' ''
end
"""

# What zsh completes is what a shell at a terminal of its own adds.
ZSHRC = """PROMPT= PS2=
unset zle_bracketed_paste
fpath=($COMPLETIONS $fpath)
autoload -Uz compinit
compinit -D -u
bindkey "^I" complete-word
compadd() {
    if [[ ${@[1,(i)(-|--)]} == *-(O|A|D)\\ * ]]; then
        builtin compadd "$@"
        return
    fi
    local -a hits
    builtin compadd -A hits "$@"
    (( $#hits )) && print -rl -- "FOUND "${^hits}
    builtin compadd "$@"
}
finish() {
    print "THE END"
    comppostfuncs=(finish)
}
comppostfuncs=(finish)
"""
ZSH = """zmodload zsh/zpty
zpty -b shell "zsh -d -i"
while IFS= read -r line; do
    zpty -w -n shell $'\\x15'"$line"$'\\t'
    out=
    repeat 2000; do
        if zpty -r -t shell piece; then
            out+=$piece
            [[ $out == *"THE END"* ]] && break
        else
            sleep 0.02
        fi
    done
    print -r -- "= $line"
    print -r -- $out | tr -d '\\r' | sed -n 's/.*FOUND //p'
done
zpty -d shell
"""


def forms():
    """Each command line with its words in capitals."""
    cases = (ROOT / "crates" / "scale_tool" / "cases" / "words.txt").read_text()
    found = re.search(r"^\$ scale help\n((?:scale .*\n)+)=> 0$", cases, re.M)[1].splitlines()
    return found + re.findall(r"^    (pace(?: [a-z]+)+ [A-Z].*)$", (ROOT / "docs" / "COMMANDS.md").read_text(), re.M)


def without_options(form):
    """A command line without what stands in brackets behind two hyphens."""
    return re.sub(r" \[--[^]]*\]", "", form)


def parts(form):
    """The names that a form begins with, of the program, its command and a part of it, and the words behind them.

    >>> parts("pace draw run MACHINE OUT IMAGE INPUT [IMAGE INPUT] ..")
    (['pace', 'draw', 'run'], ['MACHINE', 'OUT', 'IMAGE', 'INPUT', 'IMAGE', 'INPUT', '..'])
    >>> parts("scale help")
    (['scale', 'help'], [])
    >>> parts("pace loops IMAGE OUT [INPUT ..] [--input-bytes N]")
    (['pace', 'loops'], ['IMAGE', 'OUT', 'INPUT', '..'])
    """
    words = without_options(form).replace("[", "").replace("]", "").split()
    names = [*itertools.takewhile(str.islower, words)]
    return names, words[len(names) :]


def lines_of(form):
    """The lines to complete for a command, each with what must come of it: the words before, and the one that is asked for."""
    names, words = parts(form)
    options = set(re.findall(r"--[a-z-]+", form))
    if options:
        yield " ".join(names) + " a.elf --", options
    form = without_options(form)
    if words[-1:] == [".."]:
        words = words[:-1] + [words[-2]]
    done = " ".join(names) + " "
    for word in words + ["nothing"]:
        if word == "nothing" and form.rstrip("]").endswith(".."):
            return
        yield done, set() if word in NUMBERS | {"nothing"} else {name for name in FILES if word not in TABLES or name.endswith(".toml")} | {FOLDER}
        done += ("7" if word in NUMBERS else "m.toml" if word in TABLES else "a.elf") + " "


def wanted():
    """All lines to complete, each with what must come of it."""
    commands = {}
    for form in forms():
        names, _ = parts(form)
        for number in range(1, len(names)):
            commands.setdefault(" ".join(names[:number]), set()).add(names[number])
    for before, names in commands.items():
        yield before + " ", names
        for name in sorted(names):
            yield f"{before} {name[:-1]}", {other for other in names if other.startswith(name[:-1])}
    for form in forms():
        yield from lines_of(form)


def completed(shell, folder, lines):
    """What a shell completes for each of the lines."""
    scripts = {"bash": ["bash", "--norc", "-c", BASH, "bash", str(COMPLETIONS / "scale.bash")], "fish": ["fish", "--no-config", "-c", FISH, str(COMPLETIONS / "scale.fish")], "zsh": ["zsh", "-f", "-c", ZSH]}
    home = os.path.join(folder, "home")
    os.makedirs(home, exist_ok=True)
    Path(home, ".zshrc").write_text(ZSHRC)
    where = {**os.environ, "ZDOTDIR": home, "HOME": home, "XDG_CONFIG_HOME": home, "XDG_DATA_HOME": home, "COMPLETIONS": str(COMPLETIONS), "TERM": "dumb"}
    done = subprocess.run(scripts[shell], cwd=os.path.join(folder, "files"), env=where, input="\n".join(lines) + "\n", stdout=subprocess.PIPE, stderr=subprocess.PIPE, text=True, timeout=SECONDS)
    found, line = {}, None
    for text in done.stdout.splitlines():
        if text.startswith("= "):
            line = text[2:]
            found[line] = set()
        elif line is not None and text:
            found[line].add(text.rstrip("/"))
    return found


def wrong_completions(shell):
    """What is wrong of a shell's completions, and how many lines there were."""
    meant = dict(wanted())
    with tempfile.TemporaryDirectory(prefix="scale-shells-") as folder:
        files = Path(folder, "files")
        (files / FOLDER).mkdir(parents=True)
        for name in FILES:
            (files / name).write_text("")
        found = completed(shell, folder, meant)
    wrong = [f"{shell}: '{line}' gives {sorted(found.get(line, ['nothing at all']))}, and not {sorted(names)}" for line, names in meant.items() if found.get(line) != names]
    return wrong, len(meant)


def wrong_page(text):
    """What is wrong of the manual page, whose lines man shows as this text."""
    shown = [line.strip() for line in text.splitlines()]
    for form in forms():
        if form not in shown:
            yield f"docs/scale.1: the line {form} isn't there"
        name = " ".join(parts(form)[0])
        if name not in shown:
            yield f"docs/scale.1: nothing is said of {name}"
    for line in shown:
        if re.match(r"(scale|pace)( [a-z]+)+ [A-Z]", line) and line not in forms():
            yield f"docs/scale.1: no command is {line}"


def main():
    wrong, ran = [], []
    for name in ("man", "bash", "zsh", "fish"):
        if not shutil.which(name):
            ran.append(f"{name} isn't there and is left out")
        elif name == "man":
            how = {**os.environ, "MANWIDTH": "120", "MAN_KEEP_FORMATTING": "", "LC_ALL": "C.UTF-8"}
            done = subprocess.run(["man", "-l", "--warnings", "-P", "cat", str(PAGE)], env=how, stdout=subprocess.PIPE, stderr=subprocess.PIPE, text=True)
            wrong += [*wrong_page(re.sub(r".\x08|\x1b\[[\d;]*m", "", done.stdout))] + [f"man: {line}" for line in done.stderr.splitlines()]
            ran.append("man shows the page")
        else:
            told, count = wrong_completions(name)
            wrong += told
            ran.append(f"{name} completes {count} lines")
    print("\n".join([*wrong, "shells: " + ", ".join(ran) + (", and not all as it should be" if wrong else "")]))
    return 1 if wrong else 0


if __name__ == "__main__":
    sys.exit(main())

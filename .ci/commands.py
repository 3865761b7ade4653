#!/usr/bin/env python3
"""Runs the programs `scale` and `pace` themselves on the command lines of `crates/scale_tool/cases` and `crates/pace_tool/cases`, and compares all that comes of them.

    commands.py TOOL [PROGRAM ..]        these builds of the tool, which is `scale` or `pace`; with none, the one that `./TOOL` builds
    commands.py write TOOL [PROGRAM]     writes what it prints, and the texts that it stores, into the cases, whose changes a person then reads

Each command line is run in a temporary folder that has the files which it names and no others. What differs is told with its case, and
the status is then 1; so it is where a case can't be read, or where there is a file that no case uses. `commands_test.py` tests this.
"""

import os
import resource
import shutil
import subprocess
import sys
import tempfile

import cases
import images

TOOLS = ["scale", "pace"]
SECONDS = 60
# Most differences that are told of one program.
MOST = 20

MADE = ["p.elf", "p.input", "p.loops", "p.machine", "p.scaled"]
# Words of `make`, and words that make the same program.
ALIKE = [
    ("make 7 2000 p", "make 7 2000 p"),
    ("make 7 200 p", "make 7 200 p"),
    ("make 7 1 p", "make 00000000000000000007 0001 p"),
    ("make 18446744073709551615 1 p", "make 18446744073709551615 0001 p"),
]


class TooLong(Exception):
    """A run doesn't end."""


def shown(content):
    """Bytes as a text of indented lines."""
    return "".join("    %s\n" % line for line in content.decode(errors="backslashreplace").splitlines()) or "    (nothing)\n"


def difference(what, wanted, got):
    """What is to be told of a status or of names: nothing where they are as wanted."""
    return "" if wanted == got else "  %s: wanted %s, got %s\n" % (what, wanted, got)


def text_difference(what, wanted, got):
    """What is to be told of a text."""
    return "" if wanted == got else "  %s: wanted\n%s  got\n%s" % (what, shown(wanted), shown(got))


def lines_difference(name, wanted, got):
    """What is to be told of a file of lines: those from the first on that differs, up to where both are the same again."""
    if wanted == got:
        return ""
    pair = [content.split(b"\n") for content in (wanted, got)]
    first = next(k for k in range(max(map(len, pair))) if pair[0][k : k + 1] != pair[1][k : k + 1])
    while all(len(lines) > first + 1 for lines in pair) and pair[0][-1] == pair[1][-1]:
        pair = [lines[:-1] for lines in pair]
    return "".join(["  %s: from line %d on wanted\n" % (name, first + 1), shown(b"\n".join(pair[0][first:])), "  got\n", shown(b"\n".join(pair[1][first:]))])


def parts_difference(name, held, got):
    """What is to be told of a file of which parts are told: those that aren't there, or not so often."""
    told = ""
    for part, times in held.parts():
        if times is not None:
            told += difference("%s, how often %s" % (name, part.decode()), times, got.count(part))
        elif part not in got:
            told += "  %s: this isn't there\n%s" % (name, shown(part))
    return told


def file_difference(name, wanted, got):
    """What is to be told of a file: where it first differs."""
    if wanted == got:
        return ""
    at = next((k for k, (one, other) in enumerate(zip(wanted, got)) if one != other), min(len(wanted), len(got)))
    parts = [" ".join("%02x" % byte for byte in content[at : at + 16]) or "its end" for content in (wanted, got)]
    return "  %s: %d bytes wanted, %d got; from byte %d on: wanted %s, got %s\n" % (name, len(wanted), len(got), at, *parts)


def files_in(folder):
    """The files of a folder by name; None for a folder."""
    found = {}
    for entry in os.scandir(folder):
        found[entry.name] = None
        if not entry.is_dir():
            with open(entry.path, "rb") as file:
                found[entry.name] = file.read()
    return found


def run(program, folder, words, output=subprocess.PIPE, limit=None):
    """One run of the program in a folder; with a limit no file may grow beyond so many bytes."""
    how = {"stdin": subprocess.DEVNULL, "stdout": output, "stderr": subprocess.PIPE, "timeout": SECONDS}
    if limit is not None:
        # Python ignores the signal of this limit, and so must the program: then the system refuses the write.
        how.update(restore_signals=False, preexec_fn=lambda: resource.setrlimit(resource.RLIMIT_FSIZE, (limit, limit)))
    try:
        return subprocess.run([program] + words, cwd=folder, **how)
    except subprocess.TimeoutExpired:
        raise TooLong("  it ran for more than %d seconds\n" % SECONDS) from None


class Run:
    """What comes of a case: the status, both texts, and the files that are there then."""

    def __init__(self, program, case):
        with tempfile.TemporaryDirectory(prefix="scale-commands-") as folder:
            for name in case.folders:
                os.mkdir(os.path.join(folder, name))
            for name, content in given(case).items():
                with open(os.path.join(folder, name), "wb") as file:
                    file.write(content)
            if case.output is None:
                done = run(program, folder, case.arguments(), limit=case.limit)
            else:
                with open(os.path.join(folder, case.output), "wb") as output:
                    done = run(program, folder, case.arguments(), output, case.limit)
            self.found = files_in(folder)
        self.status, self.text, self.errors = done.returncode, done.stdout or b"", done.stderr


def given(case):
    """The files that are there before a case is run."""
    return {name: content for name, content in case.given().items() if name not in case.folders}


def stored_difference(shelf, name, held, got):
    """What is to be told of a file that was stored or changed."""
    if held.kind == "has":
        return parts_difference(name, held, got)
    if held.is_free():
        return ""
    return (lines_difference if held.is_text() else file_difference)(name, held.bytes(shelf), got)


def check(program, case):
    """Runs a case; gives what differs."""
    done, kept = Run(program, case), case.kept()
    wanted = {**dict.fromkeys(case.folders), **given(case), **kept}
    free = {name for name, held in case.stored if held.is_free()}
    told = difference("status", case.status, done.status)
    told += text_difference("standard output", case.text(), done.text)
    if case.error_text() is None:
        told += "" if done.errors else "  standard error: nothing\n"
    else:
        told += text_difference("standard error", case.error_text(), done.errors)
    told += difference("files", sorted(set(wanted) - free), sorted(set(done.found) - free))
    for name in sorted((set(wanted) & set(done.found)) - set(kept) - set(case.folders)):
        told += file_difference(name, wanted[name], done.found[name])
    for name, held in case.stored:
        if name in done.found:
            told += stored_difference(case.shelf, name, held, done.found[name])
    return told


def rewritten(program, case, lines):
    """What stands in the place of lines of a case's file, by where these begin and end: what is printed, the status, and the texts that are stored."""
    done, changes = Run(program, case), []
    if (case.status, case.text()) != (done.status, done.text) or case.error_text() not in (None, done.errors):
        errors = case.errors if case.error_text() is None else done.errors.decode().splitlines()
        printed = ["! " + line for line in errors] + done.text.decode().splitlines()
        changes.append((*case.at_lines, [*printed, "=> %d" % done.status]))
    for name, held in case.stored:
        if held.is_text() and done.found.get(name, held.bytes(case.shelf)) != held.bytes(case.shelf):
            stored = done.found[name].decode().removesuffix("\n").split("\n")
            changes.append((*held.at, [8 * " " + line if line else "" for line in stored]))
    return changes


def write(program, tool, folder=None):
    """Writes what a program prints and stores into the files of cases, but for cases that stand for several. The number of cases that are changed."""
    _, _, readers = cases.read_all(folder or cases_of(tool), tool)
    count = 0
    for reader in readers:
        wholes = [case for case in reader.cases if not case.range and not any(".." in line for line in case.lines)]
        changed = [changes for changes in (rewritten(program, case, reader.lines) for case in wholes) if changes]
        for start, end, lines in sorted((change for changes in changed for change in changes), reverse=True):
            reader.lines[start:end] = lines
        if changed:
            with open(reader.path, "w") as file:
                file.write("\n".join(reader.lines))
        count += len(changed)
    return count


def made(program, line):
    """What `make` answers, prints and stores."""
    with tempfile.TemporaryDirectory(prefix="scale-commands-") as folder:
        done = run(program, folder, line.split())
        return done.returncode, done.stdout, files_in(folder)


def check_alike(program, one, other):
    """What differs where both make the same program, whose images exit, and whose scaled one spends at most its held energy."""
    status, text, found = made(program, one)
    again, text_again, found_again = made(program, other)
    told = difference("statuses", (0, 0), (status, again)) + text_difference("what the second one prints", text, text_again)
    told += difference("files", (MADE, MADE), (sorted(found), sorted(found_again)))
    for name in sorted(set(found) & set(found_again)):
        told += file_difference(name, found[name], found_again[name])
    _, *runs = text.decode().split("end exit 0\n")
    told += difference("runs that exit", 2, len(runs))
    for scaled in runs[1:]:
        numbers = dict(line.split(" ", 1) for line in scaled.splitlines())
        told += difference("energy at most held", True, int(numbers["energy"]) <= int(numbers["held"]))
    return told


def claimed(claims):
    """What differs of the claims on files of the crate's `data`."""
    for place, shelf, data, phrase in claims:
        told = file_difference(data, shelf.bytes(phrase), shelf.bytes(data))
        if told:
            yield "%s:\n%s" % (place, told)


def differences(program, found, alike):
    """What differs in the runs of one program."""
    runs = [("%s: %s" % (case.place, case.line), check, (case,)) for case in found]
    runs += [("scale " + pair[0], check_alike, pair) for pair in alike]
    for name, checked, given in runs:
        try:
            told = checked(program, *given)
        except TooLong as error:
            told = str(error)
        if told:
            yield "%s\n%s" % (name, told)


def cases_of(tool):
    """The folder of a tool's cases."""
    return os.path.join(cases.TOP, "crates", tool + "_tool", "cases")


def check_all(programs, tool="scale", folder=None, alike=()):
    """The number of command lines that were run, of the cases of a folder and of `make`, and what was wrong."""
    found, claims, readers = cases.read_all(folder or cases_of(tool), tool)
    wrong, count = list(claimed(claims)), 0
    with tempfile.TemporaryDirectory(prefix="scale-program-") as copies:
        for number, built in enumerate(programs):
            # A copy of its own, so that it can be run whatever its mode.
            program = os.path.join(copies, "%s-%d" % (tool, number))
            shutil.copyfile(built, program)
            os.chmod(program, 0o755)
            told = list(differences(program, found, alike))
            if told:
                wrong += ["%s\n" % built] + told[:MOST]
            if len(told) > MOST:
                wrong.append("%d more differ\n" % (len(told) - MOST))
            count += len(found) + 2 * len(alike)
    wrong += ["%s\n" % line for line in cases.unused(readers)]
    return count, wrong


def build(tool):
    """The program that the repository's own command builds."""
    subprocess.run([os.path.join(cases.TOP, tool), "help" if tool == "scale" else "--help"], stdout=subprocess.DEVNULL, check=True)
    return os.path.join(cases.TOP, "crates", tool + "_tool", "out", tool + "_tool")


def main():
    words = sys.argv[1:]
    is_write = words[:1] == ["write"]
    tool, *programs = words[is_write:] or [""]
    if tool not in TOOLS or (is_write and len(programs) > 1):
        sys.exit(__doc__.split("\n\n")[1])
    programs = [os.path.abspath(program) for program in programs] or [build(tool)]
    try:
        if is_write:
            print("%d cases changed" % write(programs[0], tool))
            return 0
        count, wrong = check_all(programs, tool, alike=ALIKE if tool == "scale" else ())
    except (cases.Wrong, images.Wrong, TooLong) as error:
        sys.exit("%s" % error)
    sys.stdout.write("".join(wrong))
    print("%d command lines of %s%s" % (count, tool, ", and not all as expected" if wrong else " as expected"))
    return 1 if wrong else 0


if __name__ == "__main__":
    sys.exit(main())

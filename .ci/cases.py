"""Command lines of `scale` or of `pace`, and the files that they are run over, from texts whose form `crates/scale_tool/cases/README.md` has."""

import json
import os
import re
import shlex

import images

TOP = os.path.dirname(os.path.dirname(os.path.abspath(__file__)))
SHARED = "shared.txt"
READ_ME = "README.md"

NAME = r"[a-z0-9][a-z0-9.-]*"
EDIT = re.compile(r'(?:(\w+) = ("[^"]*"|[^,"]+)|("(?:[^"\\]|\\.)*") as ("(?:[^"\\]|\\.)*"))(?:, |$)')
ARITHMETIC = re.compile(r"(?:(\w+) \* )?(\w+)(?: ([+-]) (?:(\w+) \* )?(\w+))?")


class Wrong(Exception):
    """A case file that can't be read, with its place."""


def drawn(number, before, count):
    """The lowest bytes of so many numbers of the linear congruential sequence that begins at a number, behind those before."""
    numbers = []
    for _ in range(before + count):
        number = (number * 6364136223846793005 + 1442695040888963407) % 2**64
        numbers.append((number >> 33) % 256)
    return bytes(numbers[before:])


def edited(text, edits):
    """A text with other values for some of its keys, or with other texts for parts that stand in it once."""
    at = 0
    while at < len(edits):
        found = EDIT.match(edits, at)
        if not found:
            raise Wrong("no edit: " + edits[at:])
        key, value, part, other = found.groups()
        if key:
            matches = re.findall(r"^%s = .*$" % key, text, re.M)
            part, other = (matches[0], "%s = %s" % (key, value)) if len(matches) == 1 else ("", "")
        else:
            part, other = json.loads(part), json.loads(other)
        if not part or text.count(part) != 1:
            raise Wrong("this doesn't stand once in the text: " + found[0])
        text, at = text.replace(part, other), found.end()
    return text


def value_of(sum_text, letter, number):
    """A number, the letter, a multiple of one, or the sum or difference of two such, as `0x10000 + 4 * N`.

    >>> value_of("0x10000 + 4 * N", "N", 3), value_of("N", "N", 3), value_of("15 - N", "N", 3)
    (65548, 3, 12)
    """
    found = ARITHMETIC.fullmatch(sum_text)
    if not found:
        raise Wrong("no number: " + sum_text)
    one, two, sign, three, four = ((number if part == letter else part) for part in found.groups())
    numbers = [1 if part is None else part if isinstance(part, int) else int(part, 0) for part in (one, two, three, four)]
    first, second = numbers[0] * numbers[1], numbers[2] * numbers[3]
    return first if sign is None else first + second if sign == "+" else first - second


def filled(line, letter, number):
    """A line with the values of what stands in braces."""
    return re.sub(r"\{([^}]*)\}", lambda part: str(value_of(part[1], letter, number)), line)


def repeated(lines):
    """Lines in which each part from `repeat ..` to `end` stands as often as it says."""
    made, at = [], 0
    while at < len(lines):
        found = re.fullmatch(r"repeat (?:(\d+) times|([A-Z]) from (\d+) to (\d+))", lines[at])
        if not found:
            made.append(lines[at])
            at += 1
            continue
        end = lines.index("end", at)
        part, at = lines[at + 1 : end], end + 1
        times, letter, first, last = found.groups()
        if times:
            made += part * int(times)
            continue
        first, last = int(first), int(last)
        for number in range(first, last + 1) if first <= last else range(first, last - 1, -1):
            made += [filled(line, letter, number) for line in part]
    return made


def told(lines):
    """Printed lines, of which each with `{1..64}` stands for one a number."""
    made = []
    for line in lines:
        found = re.search(r"\{(\d+)\.\.(\d+)\}", line)
        numbers = range(int(found[1]), int(found[2]) + 1) if found else [0]
        made += [line.replace(found[0], str(number)) if found else line for number in numbers]
    return "".join(line + "\n" for line in made).encode()


class Shelf:
    """Files and macros by their names; files are made when they are first asked for. Those of a shelf behind it are seen too.

    Its folder has the files of cases: beside it stands the crate's `data`.
    """

    def __init__(self, folder, behind=None):
        self.folder, self.behind, self.places, self.lines, self.made, self.used = folder, behind, {}, {}, {}, set()

    def add(self, name, place, kind, rest):
        """An `image` with its base and lines, a `text`, a `phrase` for a file, or a `macro` with its words and lines."""
        if self.holder(name):
            raise Wrong("there are two of the name " + name)
        self.places[name], self.lines[name] = place, (kind, rest)

    def holder(self, name):
        """The shelf on which a name stands."""
        return self if name in self.lines else self.behind.holder(name) if self.behind else None

    def take(self, name, kind):
        """What stands under a name, which must be of this kind."""
        holder = self.holder(name)
        if not holder or holder.lines[name][0] != kind:
            raise Wrong("no such %s: %s" % (kind, name))
        holder.used.add(name)
        return holder.lines[name][1]

    def image(self, name):
        """The lines of an image."""
        base, lines = self.take(name, "image")
        return images.Image(lines, self.image(base) if base else None)

    def unfolded(self, line):
        """The lines of the macro that a line names, or the line itself."""
        name, values = images.instruction(line)
        holder = self.holder(name)
        if not holder or holder.lines[name][0] != "macro":
            return [line]
        words, part = self.take(name, "macro")
        if len(words) != len(values):
            raise Wrong("%s stands for %d values" % (name, len(words)))
        given = dict(zip(words, values))
        return [re.sub(r"\\(\w+)", lambda word: given[word[1]], each) for each in part]

    def file(self, name):
        """The bytes of a file."""
        holder = self.holder(name)
        kind, rest = holder.lines[name] if holder else ("macro", None)
        if kind == "macro":
            raise Wrong("no such file: " + name)
        holder.used.add(name)
        if name not in holder.made:
            try:
                holder.made[name] = holder.image(name).bytes() if kind == "image" else holder.bytes(rest) if kind == "phrase" else rest.encode()
            except (Wrong, images.Wrong) as error:
                raise Wrong("%s: %s" % (holder.places[name], error)) from None
        return holder.made[name]

    def bytes(self, phrase):
        """The bytes that a phrase tells."""
        if phrase == "nothing":
            return b""
        if phrase.startswith('"'):
            text, _, more = phrase.partition(" then ")
            return json.loads(text).encode() + bytes.fromhex(more)
        for form, give in PHRASES:
            found = re.fullmatch(form, phrase)
            if found:
                return give(self, *found.groups())
        raise Wrong("no phrase for a file: " + phrase)

    def given(self, word):
        """The bytes of the file that a word of a command line names, if so."""
        name, _, count = word.partition(":")
        if self.holder(word):
            return self.file(word)
        return self.file(name)[: int(count)] if self.holder(name) and count.isdigit() else None

    def data(self, name):
        """A file of the crate's `data`."""
        with open(os.path.join(os.path.dirname(self.folder), "data", name), "rb") as file:
            return file.read()


# How a file is told by others.
PHRASES = [
    (r"(\d+) zero bytes", lambda shelf, count: bytes(int(count))),
    (r"(\d+) drawn bytes of (\d+) behind (\d+)", lambda shelf, count, number, before: drawn(int(number), int(before), int(count))),
    (r"data/(%s)" % NAME, Shelf.data),
    (r"(%s)" % NAME, Shelf.file),
    (r"(%s):(\d+)" % NAME, lambda shelf, name, count: shelf.file(name)[: int(count)]),
    (r"(%s) with (.+)" % NAME, lambda shelf, name, edits: edited(shelf.file(name).decode(), edits).encode()),
    (r"(%s(?::\d+)?) held at (\d+)" % NAME, lambda shelf, phrase, level: images.with_block(shelf.bytes(phrase), b"", int(level))),
]  # fmt: skip


class Held:
    """What a file must hold at the end: the bytes of a phrase, a text of its own lines, certain lines, or a part so often."""

    def __init__(self, kind, rest, lines=(), at=None):
        """`is` a phrase or `lines`, `has` lines, or `has` a number of times a part; and the place of its own lines."""
        self.kind, self.rest, self.lines, self.at = kind, rest, lines, at

    def is_free(self):
        """Whether it may hold anything."""
        return self.kind == "is" and self.rest == "anything"

    def is_text(self):
        """Whether its own lines say all that it holds."""
        return self.kind == "is" and not self.rest

    def bytes(self, shelf):
        """All that it holds; None where only parts of it are told."""
        if self.kind == "has" or self.is_free():
            return None
        return "".join(line + "\n" for line in self.lines).encode() if self.is_text() else shelf.bytes(self.rest)

    def parts(self):
        """The parts that it has, each with how often; None for a part that stands there, however often."""
        found = re.fullmatch(r"(\d+) times (\".*\")", self.rest)
        return [(json.loads(found[2]).encode(), int(found[1]))] if found else [(line.encode(), None) for line in self.lines]

    def filled(self, letter, number):
        """The same for a number in place of a letter."""
        return Held(self.kind, filled(self.rest, letter, number), self.lines)


class Case:
    """A command line: its words, the folders and the limit under which it is run, and what must come of it."""

    def __init__(self, place, shelf, tool="scale"):
        self.place, self.shelf, self.tool, self.folders, self.limit, self.range = place, shelf, tool, [], None, None
        self.line, self.words, self.output, self.lines, self.status, self.stored = "", [], None, [], None, []
        self.errors, self.at_lines = [], None

    def read_words(self, line):
        """The words of `$ scale ..`: `x*3` is three words, `\\xff` one byte, `> NAME` where the text goes."""
        self.line = line.removeprefix("$ ")
        words = shlex.split(self.line.replace("\\", "\\\\"))
        if words[:1] != [self.tool]:
            raise Wrong("the words don't begin by `%s`" % self.tool)
        if words[-2:-1] == [">"]:
            self.output, words = words[-1], words[:-2]
        for word in words[1:]:
            name, _, count = word.partition("*")
            self.words += [name] * int(count or "1")

    def each(self):
        """The case itself, or one of each number in its range."""
        if not self.range:
            return [self]
        letter, first, last = self.range
        return [self.at(letter, number) for number in range(first, last + 1)]

    def at(self, letter, number):
        """The case of a number."""
        made = Case(self.place, self.shelf, self.tool)
        made.folders, made.limit, made.output, made.lines, made.status = self.folders, self.limit, self.output, self.lines, self.status
        made.line, made.words, made.errors = filled(self.line, letter, number), [filled(word, letter, number) for word in self.words], self.errors
        made.stored = [(name, held.filled(letter, number)) for name, held in self.stored]
        return made

    def given(self):
        """The files that its words name."""
        names = {os.fsdecode(word) for word in self.arguments()}
        found = {name: self.shelf.given(name) for name in names}
        return {name: content for name, content in found.items() if content is not None}

    def arguments(self):
        """Its words, as they are handed to the program."""
        return [re.sub(rb"\\x([0-9a-f]{2})", lambda byte: bytes([int(byte[1], 16)]), word.encode()) for word in self.words]

    def text(self):
        """What must be printed."""
        return told(self.lines)

    def error_text(self):
        """What must be told on standard error; None where it may be anything but nothing."""
        return None if self.errors == [".."] else told(self.errors)

    def kept(self):
        """What each file must hold at the end that is stored or changed; None where only parts of it are told, or nothing."""
        return {name: held.bytes(self.shelf) for name, held in self.stored}


class Reader:
    """Reads one file of cases."""

    def __init__(self, path, shelf, tool):
        self.path, self.name, self.shelf, self.tool = path, os.path.relpath(path, TOP), shelf, tool
        self.cases, self.at, self.claims = [], 0, []
        with open(path) as file:
            self.lines = file.read().split("\n")

    def place(self):
        """Where the next line stands."""
        return "%s:%d" % (self.name, self.at + 1)

    def body(self):
        """The indented lines that follow."""
        lines = []
        while self.at < len(self.lines) and self.lines[self.at].startswith("    "):
            lines.append(self.lines[self.at][4:])
            self.at += 1
        return lines

    def code(self):
        """The lines of code that follow."""
        lines = [line.split("#")[0].strip() for line in self.body()]
        return repeated([line for line in lines if line])

    def read(self):
        """Its files, cases and claims."""
        case = None
        while self.at < len(self.lines):
            place, line = self.place(), self.lines[self.at]
            self.at += 1
            if not line or line.startswith("#"):
                continue
            try:
                case = self.read_line(place, line, case)
            except (Wrong, images.Wrong, ValueError) as error:
                raise Wrong("%s: %s" % (place, error)) from None
        if case:
            raise Wrong("%s: no command line follows" % case.place)
        return self

    def read_line(self, place, line, case):
        """One line with what belongs to it; gives the case to which the next line belongs."""
        image = re.fullmatch(r"image (%s)(?: of (%s))?" % (NAME, NAME), line)
        macro = re.fullmatch(r"macro (%s)((?: \w+)*)" % NAME, line)
        file = re.fullmatch(r'file (%s|"[^"]+")(?: = (.+))?' % NAME, line)
        claim = re.fullmatch(r"(data/%s) is (.+)" % NAME, line)
        see = re.fullmatch(r"see (\w+)", line)
        if image:
            lines = self.code()
            unfolded = {line: self.shelf.unfolded(line) for line in set(lines)}
            self.shelf.add(image[1], place, "image", (image[2], [each for line in lines for each in unfolded[line]]))
        elif macro:
            self.shelf.add(macro[1], place, "macro", (macro[2].split(), self.code()))
        elif file and file[2]:
            self.shelf.add(file_name(file[1]), place, "phrase", file[2])
        elif file:
            self.shelf.add(file_name(file[1]), place, "text", "".join(part + "\n" for part in repeated(self.body())))
        elif claim:
            self.claims.append((place, claim[1], claim[2]))
        elif see:
            self.shelf.behind = shared_of(see[1])
        else:
            return self.read_case(line, case or Case(place, self.shelf, self.tool))
        return case

    def read_case(self, line, case):
        """A line of a case: how it is run, or its words with all that follows."""
        limit, folder = re.fullmatch(r"limit (\d+)", line), re.fullmatch(r"folder (%s)" % NAME, line)
        counted = re.fullmatch(r"for ([A-Z]) from (\d+) to (\d+)", line)
        if limit:
            case.limit = int(limit[1])
        elif folder:
            case.folders.append(folder[1])
        elif counted:
            case.range = (counted[1], int(counted[2]), int(counted[3]))
        elif line.startswith("$ "):
            case.read_words(line)
            self.read_end(case)
            self.cases.append(case)
            return None
        else:
            raise Wrong("what is this? " + line)
        return case

    def read_end(self, case):
        """The printed lines, the status, and what is stored."""
        first = self.at
        while not self.lines[self.at].startswith("=> "):
            line = self.lines[self.at]
            told_in, told_line = (case.errors, line[2:]) if line.startswith("! ") else (case.lines, line)
            told_in.append(told_line)
            self.at += 1
            if self.at == len(self.lines):
                raise Wrong("no status follows")
        case.status = int(self.lines[self.at][3:])
        self.at += 1
        case.at_lines = (first, self.at)
        while self.at < len(self.lines) and self.lines[self.at].startswith("    "):
            self.read_stored(case)

    def read_stored(self, case):
        """A line of what a file must hold, with the lines of its text, if so: these are indented twice, or empty."""
        line = self.lines[self.at]
        found = re.fullmatch(r"    (\S+) (is|has)(?: (.+))?", line)
        if not found:
            raise Wrong("what does it hold? " + line.strip())
        self.at += 1
        first = self.at
        if not found[3]:
            self.at = self.text_end()
        lines = [line.removeprefix(8 * " ") for line in self.lines[first : self.at]]
        if not found[3] and not lines:
            raise Wrong("no lines follow: " + line.strip())
        case.stored.append((found[1], Held(found[2], found[3] or "", lines, (first, self.at))))

    def text_end(self):
        """Where the lines end that are indented twice, with empty ones between them."""
        end = here = self.at
        while here < len(self.lines) and (not self.lines[here] or self.lines[here].startswith(8 * " ")):
            here += 1
            end = here if self.lines[here - 1] else end
        return end


def file_name(text):
    """The name of a file, which may stand in quotes."""
    return json.loads(text) if text.startswith('"') else text


def shared_of(crate):
    """What the pages of another crate's cases share."""
    folder = os.path.join(TOP, "crates", crate, "cases")
    shelf = Shelf(folder)
    Reader(os.path.join(folder, SHARED), shelf, None).read()
    return shelf


def read_all(folder, tool="scale"):
    """The cases and claims of a folder's files, and the readers of these. What stands there and nothing uses is told when all have been run: see `unused`."""
    names = sorted(os.listdir(folder))
    others = [name for name in names if not name.endswith(".txt") and name != READ_ME]
    if others:
        raise Wrong("%s: no file of cases" % os.path.join(os.path.relpath(folder, TOP), others[0]))
    shared, readers = Shelf(folder), []
    names = [SHARED] * (SHARED in names) + [name for name in names if name.endswith(".txt") and name != SHARED]
    for name in names:
        shelf = shared if name == SHARED else Shelf(folder, shared)
        readers.append(Reader(os.path.join(folder, name), shelf, tool).read())
    cases = [each for reader in readers for case in reader.cases for each in case.each()]
    claims = [(place, reader.shelf, data, phrase) for reader in readers for place, data, phrase in reader.claims]
    return cases, claims, readers


def unused(readers):
    """The places of the files that no case asked for."""
    shelves = [reader.shelf for reader in readers]
    return ["%s: nothing uses %s" % (shelf.places[name], name) for shelf in shelves for name in shelf.lines if name not in shelf.used]

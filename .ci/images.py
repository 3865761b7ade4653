"""Images of programs, from lines that a person reads: instructions of RV32IM as GNU as writes them, and fields of ELF.

An image without further words is plain: a header, one program header, and the code, which begins at the address 0x10000. Lines change it:

    name:                       a label
    beq x10, x0, name           an instruction; its target is a label, an address as 0x10014, or so many bytes away, as `. + 8`
    .word 0x13, 7               words of four bytes
    .string "_start"            a text, and a byte 0 behind it
    .header entry = 0x10002     fields of the header, by their names in ELF without e_
    .segment memsz = 16         a program header: a plain image's, but for these fields, by their names without p_; there is one at least
    .section offset = 200       a section header, where it stands; its other fields are 0
    .symbol value = 0x10000     a symbol, where it stands; its other fields are 0
    .at 0x10010                 what follows, up to the next such line, stands from this address on in place of the code or the block
    .stubs 1                    what follows is a block of stubs, behind the text; its segment names level 1
    .trees                      what follows is a block of trees, behind the text
"""

import functools
import json
import re
import struct

ENTRY = 0x00010000
PAGE = 4096

# The minor numbers of each instruction, by the kind of its operands.
OF_THREE = {
    "add": (0, 0), "sub": (0, 32), "sll": (1, 0), "slt": (2, 0), "sltu": (3, 0),
    "xor": (4, 0), "srl": (5, 0), "sra": (5, 32), "or": (6, 0), "and": (7, 0),
    "mul": (0, 1), "mulh": (1, 1), "mulhsu": (2, 1), "mulhu": (3, 1),
    "div": (4, 1), "divu": (5, 1), "rem": (6, 1), "remu": (7, 1),
}  # fmt: skip
OF_NUMBER = {"addi": 0, "slti": 2, "sltiu": 3, "xori": 4, "ori": 6, "andi": 7}
OF_SHIFT = {"slli": (1, 0), "srli": (5, 0), "srai": (5, 32)}
OF_LOAD = {"lb": 0, "lh": 1, "lw": 2, "lbu": 4, "lhu": 5}
OF_STORE = {"sb": 0, "sh": 1, "sw": 2}
OF_BRANCH = {"beq": 0, "bne": 1, "blt": 4, "bge": 5, "bltu": 6, "bgeu": 7}
OF_UPPER = {"lui": 0x37, "auipc": 0x17}
ALONE = {"ecall": 0x00000073, "ebreak": 0x00100073, "nop": 0x00000013, "ret": 0x00008067}

HEADER = (
    "type", "machine", "version", "entry", "phoff", "shoff", "flags",
    "ehsize", "phentsize", "phnum", "shentsize", "shnum", "shstrndx",
)  # fmt: skip
SEGMENT = ("type", "offset", "vaddr", "paddr", "filesz", "memsz", "flags", "align")
SECTION = ("name", "type", "flags", "addr", "offset", "size", "link", "info", "addralign", "entsize")
SYMBOL = ("name", "value", "size", "info", "other", "shndx")


class Wrong(Exception):
    """A line that can't be read."""


def register(text):
    """The number of a register: x0 to x31."""
    if not re.fullmatch(r"x([0-9]|[12][0-9]|3[01])", text):
        raise Wrong("no register: " + text)
    return int(text[1:])


def within(text, bits, signed=True):
    """A number, as so many bits."""
    value = int(text, 0)
    low, high = (-(1 << bits - 1), 1 << bits - 1) if signed else (0, 1 << bits)
    if not low <= value < high:
        raise Wrong("a number of more than %d bits: %s" % (bits, text))
    return value & (1 << bits) - 1


def place(text):
    """The number and the register of an operand like 4(x5)."""
    found = re.fullmatch(r"(-?\w+)\((x\d+)\)", text)
    if not found:
        raise Wrong("no place: " + text)
    return within(found[1], 12), register(found[2])


def far(offset, bits):
    """How far a target is, as so many bits."""
    if offset % 2 or not -(1 << bits - 1) <= offset < 1 << bits - 1:
        raise Wrong("a target that can't be reached: %d bytes away" % offset)
    return offset & (1 << bits) - 1


def branch_word(name, one, other, offset):
    """The word of a branch."""
    to = far(offset, 13)
    low = (to & 0x1E) << 7 | (to >> 11 & 1) << 7
    return to >> 12 << 31 | (to >> 5 & 63) << 25 | other << 20 | one << 15 | OF_BRANCH[name] << 12 | low | 0x63


def jump_word(link, offset):
    """The word of a jump."""
    to = far(offset, 21)
    return to >> 20 << 31 | (to >> 1 & 1023) << 21 | (to >> 11 & 1) << 20 | (to >> 12 & 255) << 12 | link << 7 | 0x6F


def word_of(name, operands):
    """The word of an instruction that names no target.

    >>> [hex(word_of(*instruction(line))) for line in ("addi x10, x0, 7", "div x5, x5, x6", "sw x6, -4(x0)", "lui x5, 0x10")]
    ['0x700513', '0x262c2b3', '0xfe602e23', '0x102b7']
    """
    if name in ALONE and not operands:
        return ALONE[name]
    if name in OF_UPPER:
        rd, number = operands
        return within(number, 20, signed=False) << 12 | register(rd) << 7 | OF_UPPER[name]
    if name in OF_STORE:
        number, base = place(operands[1])
        return number >> 5 << 25 | register(operands[0]) << 20 | base << 15 | OF_STORE[name] << 12 | (number & 31) << 7 | 0x23
    if name in OF_LOAD or name == "jalr":
        number, base = place(operands[1])
        minor, major = (OF_LOAD[name], 0x03) if name in OF_LOAD else (0, 0x67)
        return number << 20 | base << 15 | minor << 12 | register(operands[0]) << 7 | major
    rd, one, other = operands
    front = register(one) << 15 | register(rd) << 7
    if name in OF_THREE:
        minor, more = OF_THREE[name]
        return more << 25 | register(other) << 20 | front | minor << 12 | 0x33
    if name in OF_SHIFT:
        minor, more = OF_SHIFT[name]
        return more << 25 | within(other, 5, signed=False) << 20 | front | minor << 12 | 0x13
    return within(other, 12) << 20 | front | OF_NUMBER[name] << 12 | 0x13


def instruction(line):
    """The name of an instruction, and its operands."""
    name, _, rest = line.partition(" ")
    return name, [operand.strip() for operand in rest.split(",")] if rest else []


def word_to(line, offset):
    """The word of a branch or a jump whose target is so far away.

    >>> hex(word_to("beq x10, x0, name", 28)), hex(word_to("jal x0, name", -4104))
    ('0x50e63', '0xff9fe06f')
    """
    name, operands = instruction(line)
    if name == "jal":
        return jump_word(register(operands[0]), offset)
    return branch_word(name, register(operands[0]), register(operands[1]), offset)


def fields(names, text):
    """What stands behind the names of some fields."""
    given = {}
    for part in filter(None, (part.strip() for part in text.split(","))):
        name, is_given, value = part.partition(" = ")
        if name not in names or not is_given:
            raise Wrong("no such field: " + part)
        given[name] = int(value, 0)
    return given


@functools.lru_cache(maxsize=None)
def piece(line):
    """The bytes of a line, wherever it stands; or, of an instruction with a label or an address for a target, that target."""
    name, operands = instruction(line)
    if name in OF_BRANCH or name == "jal":
        target = operands[-1] if operands else ""
        relative = re.fullmatch(r"\.(?: ([+-]) (\w+))?", target)
        if not relative:
            return target
        return struct.pack("<I", word_to(line, int((relative[1] or "") + (relative[2] or "0"), 0)))
    if name == ".word":
        return struct.pack("<%dI" % len(operands), *(int(operand, 0) for operand in operands))
    if name == ".string":
        return json.loads(line.partition(" ")[2]).encode() + b"\0"
    if name == ".section":
        given = fields(SECTION, line.partition(" ")[2])
        return struct.pack("<10I", *(given.get(name, 0) for name in SECTION))
    if name == ".symbol":
        given = fields(SYMBOL, line.partition(" ")[2])
        return struct.pack("<IIIBBH", *(given.get(name, 0) for name in SYMBOL))
    try:
        return struct.pack("<I", word_of(name, operands))
    except (KeyError, ValueError, IndexError):
        raise Wrong("no instruction: " + line) from None


def length(line):
    """How many bytes a line takes."""
    found = piece(line)
    return 4 if isinstance(found, str) else len(found)


def labelled(lines, start, labels):
    """The lines without their labels, whose addresses are added, and the address behind them."""
    here, rest = start, []
    for line in lines:
        if line.endswith(":"):
            labels[line[:-1]] = here
        else:
            rest.append(line)
            here += length(line)
    return rest, here


def address_of(target, labels):
    """The address that a label or a number names."""
    if target in labels:
        return labels[target]
    if not re.fullmatch(r"0x[0-9a-f]+", target):
        raise Wrong("no such label: " + target)
    return int(target, 16)


def assembled(lines, start, labels):
    """The bytes of lines without labels, from an address on."""
    made = bytearray()
    for line in lines:
        found = piece(line)
        if isinstance(found, str):
            found = struct.pack("<I", word_to(line, address_of(found, labels) - start - len(made)))
        made += found
    return bytes(made)


def page_behind(number):
    """The next multiple of a page's size."""
    return -(-number // PAGE) * PAGE


def text_end(image):
    """Where the segments that can be run end."""
    offset, number = struct.unpack_from("<I", image, 28)[0], struct.unpack_from("<H", image, 44)[0]
    loaded = [struct.unpack_from("<8I", image, offset + 32 * k) for k in range(number)]
    return max(vaddr + memsz for kind, _, vaddr, _, _, memsz, flags, _ in loaded if kind == 1 and flags & 1)


def with_block(image, block, level=None):
    """An image with a block behind its file and its text, and behind that its program headers with that of the block.

    With a level it is a block of stubs, whose segment names the level; without one it is a block of trees.
    """
    offset, number = struct.unpack_from("<I", image, 28)[0], struct.unpack_from("<H", image, 44)[0]
    table = [image[offset + 32 * k : offset + 32 * k + 32] for k in range(number)]
    start, address = page_behind(len(image)), page_behind(text_end(image))
    physical, flags, align = (address, 5, 4) if level is None else (level, 0x00100005, PAGE)
    behind = [k for k, entry in enumerate(table) if entry[:4] == b"\1\0\0\0" and struct.unpack_from("<I", entry, 8)[0] > address]
    table.insert(behind[0] if behind else number, struct.pack("<8I", 1, start, address, physical, len(block), len(block), flags, align))
    made = bytearray(image.ljust(start, b"\0") + block + b"".join(table))
    struct.pack_into("<I", made, 28, start + len(block))
    struct.pack_into("<H", made, 44, number + 1)
    return bytes(made)


class Image:
    """The lines of an image, in their parts."""

    def __init__(self, lines, base=None):
        """Of these lines; with a base, behind its lines."""
        self.lines = (base.lines if base else []) + lines
        self.header, self.segments, self.code, self.patches = {}, [], [], []
        self.block, self.level = None, None
        part = self.code
        for line in self.lines:
            name, _, rest = line.partition(" ") if line.startswith(".") else (None, None, None)
            if name == ".header":
                self.header.update(fields(HEADER, rest))
            elif name == ".segment":
                self.segments.append(fields(SEGMENT, rest))
            elif name == ".at":
                part = []
                self.patches.append((int(rest, 0), part))
            elif name in (".stubs", ".trees"):
                self.level = int(rest) if name == ".stubs" else None
                self.block = part = [] if self.block is None else self.block
            else:
                part.append(line)

    def plain(self, code):
        """The file without its block."""
        segments = self.segments or [{}]
        start = 52 + 32 * len(segments)
        usual = dict(zip(SEGMENT, (1, start, ENTRY, ENTRY, len(code), len(code), 5, 4)))
        head = dict(zip(HEADER, (2, 243, 1, ENTRY, 52, 0, 0, 52, 32, len(segments), 0, 0, 0)))
        head.update(self.header)
        made = b"\x7fELF\x01\x01\x01" + bytes(9) + struct.pack("<HHIIIIIHHHHHH", *(head[name] for name in HEADER))
        for given in segments:
            made += struct.pack("<8I", *({**usual, **given}[name] for name in SEGMENT))
        return made + code

    def bytes(self):
        """The file."""
        labels = {}
        code, end = labelled(self.code, ENTRY, labels)
        behind = page_behind(end)
        block, _ = labelled(self.block or [], behind, labels)
        parts = [(ENTRY, bytearray(assembled(code, ENTRY, labels))), (behind, bytearray(assembled(block, behind, labels)))]
        for address, lines in self.patches:
            start, part = next(((start, part) for start, part in reversed(parts) if start <= address), (0, b""))
            patch = assembled(labelled(lines, address, labels)[0], address, labels)
            if address + len(patch) > start + len(part):
                raise Wrong("nothing stands at 0x%x" % address)
            part[address - start : address - start + len(patch)] = patch
        made = self.plain(bytes(parts[0][1]))
        return made if self.block is None else with_block(made, bytes(parts[1][1]), self.level)

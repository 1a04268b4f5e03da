"""The most stack that each exported function of a static library takes, by the frames that the compiler gave its functions.

`most_of` reads the machine code of an archive. A function's frame is what its code takes at its beginning: what it pushes, and what it
subtracts from the pointer to the stack. The most of a function is its frame and the most of what it calls. On x86-64 each call
puts its way back on the stack, too. Two functions call themselves, once for each level of a tree. Any other that calls itself, over
others or at once, has no most and is refused. So is all by which a call or a frame would not be known: a call of an address in a
register, an address of a function that is no call's, and any other change of the pointer. What the heap and the functions of the C
library take comes on top.
"""
import re
import struct
import subprocess
import tempfile
from typing import NamedTuple

# By the format of ELF: kinds of sections and of symbols, and the numbers of the processors.
RELA, SYMTAB, EMPTY, FUNCTION = 4, 2, 8, 2
X86_64, AARCH64 = 62, 183
# The kinds of relocations of calls and of jumps to another function, and what a call puts on the stack besides the frame.
CALLS, WAY_BACK = {X86_64: {4}, AARCH64: {282, 283}}, {X86_64: 8, AARCH64: 0}
# As objdump writes them: a call; what takes stack, as one of two numbers; what gives it back; and what else changes the pointer.
CALL = re.compile(r"\t(?:callq?|blr?)\b")
TAKES = {X86_64: re.compile(r"\tsub\s+\$(0x[0-9a-f]+),%rsp"),
         AARCH64: re.compile(r"\tsub\tsp, sp, #(0x[0-9a-f]+)(, lsl #12)?|\[sp, #-(\d+)\]!")}
GIVES = {X86_64: re.compile(r"\tadd\s+\$0x[0-9a-f]+,%rsp|\tlea\s+0x[0-9a-f]+\(%rsp\),%rsp"),
         AARCH64: re.compile(r"\tadd\tsp, sp, #|\[sp\], #\d+")}
CHANGES = {X86_64: re.compile(r",%rsp$|\t(?:leave|enter)"), AARCH64: re.compile(r"\t(?:mov|add|sub|and)\tsp, |\[sp, #-?\d+\]!|\[sp\], ")}
PUSH = re.compile(r"\tpushq?\s")
# The functions that call themselves, and how deep they go. One frees a tree of the standard library, each of whose nodes but the
# highest has six nodes below it or more: of 2^32 entries there are at most 13 levels. The other makes a node over up to 64 leaves.
LEVELS = {"std_collections::btree::node::Node::destroy": 13, "gen_tree::nodes::node_at": 7}
SECTION = re.compile(r"^Disassembly of section (.*):$")


class Refused(Exception):
    """Why there is no most, in one line."""


class Part(NamedTuple):
    """A section: its name, and its relocations: the symbol's number and the kind of each."""
    name: str
    refers: list


class Symbol(NamedTuple):
    name: str
    kind: int
    section: int


class Object:
    """An object file of ELF with 64 bits, little-endian, whose functions stand in sections of their own."""

    def __init__(self, data):
        self.machine = struct.unpack_from("<H", data, 18)[0]
        at, (size, count, names) = struct.unpack_from("<Q", data, 40)[0], struct.unpack_from("<HHH", data, 58)
        heads = [struct.unpack_from("<IIQQQQIIQQ", data, at + size * it) for it in range(count)]
        body = lambda it: data[heads[it][4] : heads[it][4] + heads[it][5]] if heads[it][1] != EMPTY else b""
        text = lambda table, offset: table[offset : table.index(b"\0", offset)].decode()
        self.parts = [Part(text(body(names), head[0]), []) for head in heads]
        self.symbols = []
        for it, head in enumerate(heads):
            if head[1] == SYMTAB:
                rows = struct.iter_unpack("<IBBHQQ", body(it))
                self.symbols = [Symbol(text(body(head[6]), row[0]), row[1] & 15, row[3]) for row in rows]
            elif head[1] == RELA:
                self.parts[head[7]].refers.extend((info >> 32, info & 0xFFFFFFFF) for _, info, _ in struct.iter_unpack("<QQq", body(it)))

    def called(self, section):
        """The sections of the functions that the code of one calls."""
        found = set()
        for symbol, kind in self.parts[section].refers:
            to = self.symbols[symbol]
            if to.kind == FUNCTION and kind not in CALLS[self.machine]:
                raise Refused(f"{self.parts[section].name} has the address of {to.name}")
            if kind in CALLS[self.machine] and 0 < to.section < len(self.parts):
                found.add(to.section)
        return found


def frame_of(lines, machine, name):
    """The bytes of a function's frame, of its code as objdump writes it."""
    taken = 0
    for line in lines:
        takes = TAKES[machine].search(line)
        if takes:
            number = next(it for it in takes.groups() if it and it[0] != ",")
            taken += int(number, 0) << (12 if "lsl #12" in line else 0)
        elif machine == X86_64 and PUSH.search(line):
            taken += 8
        elif CHANGES[machine].search(line) and not GIVES[machine].search(line):
            raise Refused(f"{name}: the frame is not known: {line.strip()}")
    return taken


def levels_of(name):
    """How often a function is on the stack at one time."""
    return LEVELS.get(name.removeprefix(".text.").partition("::<")[0], 1)


def disassembled(path, objdump):
    """The lines of code of each section of an object, by its name. A call has to name a function, and only some name their own."""
    words, found, name = [objdump, "-dr", "--no-show-raw-insn", path], {}, None
    told = subprocess.run(words, capture_output=True, text=True, check=True).stdout.splitlines()
    for line, behind in zip(told, [*told[1:], ""]):
        section = SECTION.match(line)
        name = section[1] if section else name
        if CALL.search(line) and "R_" not in behind and not (levels_of(name) > 1 and f"<{name[6:]}>" in line):
            raise Refused(f"{name}: it is not known what is called: {line.strip()}")
        found.setdefault(name, []).append(line)
    return found


def most_of(archive, target):
    """The most stack of each function of an archive that others may call, by its name."""
    with tempfile.TemporaryDirectory() as folder:
        names = subprocess.run(["ar", "t", archive], capture_output=True, text=True, check=True).stdout.split()
        if len(names) != 1:
            raise Refused(f"{archive} has {len(names)} objects")
        subprocess.run(["ar", "x", archive], cwd=folder, check=True)
        path = f"{folder}/{names[0]}"
        with open(path, "rb") as file:
            made = Object(file.read())
        code = disassembled(path, target.tool("objdump"))
    known, under = {}, []

    def most(section):
        name = made.parts[section].name
        if section in under:
            raise Refused(f"functions call each other in a ring: {', '.join(made.parts[it].name for it in under)}")
        if section not in known:
            under.append(section)
            deepest = max(map(most, made.called(section)), default=0)
            frame = WAY_BACK[made.machine] + frame_of(code[name], made.machine, name)
            known[section] = deepest + levels_of(name) * frame
            under.pop()
        return known[section]

    return {it.name: most(it.section) for it in made.symbols if it.kind == FUNCTION and it.name.startswith("sm_")}

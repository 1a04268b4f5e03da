"""Receipts of logs: an actuator (embed/actuator.c) never opens on another order than correct nodes decided.

The archive is crates/sm_node/out/libsm_node.a, which `rt lib` builds in crates/sm_node; without it, or without a compiler,
nothing is tried, and a line says so. The program makes 1,000 runs of 3 to 7 generals, of whom at most m lie. The receipts of the
others are the ends of their logs. What liars add is signed with their own keys: any order, and several receipts of one liar.
Receipts also come twice, from another run, under the header of this run, bent and cut. Of each file the library (sm_node_shown, over
the heap of an actuator, embed/arena.c) tells what the reference tells. Where m + 1 receipts of correct nodes are there, their order
is shown. With the keys of m + 1 generals another order is shown, so these trials can fail. The actuator as a process is asked of the
files of 200 runs. What it is built of asks for no memory, and one call needs little stack.
"""
import collections
import ctypes
import dataclasses
import itertools
import multiprocessing
import os
import re
import shutil
from concurrent.futures import ProcessPoolExecutor, as_completed
from typing import NamedTuple, Optional

import reference
from differs import day
from drawn import shuffled, some_of
from draws import Draws
from embed import EMBED, SANITIZERS, TOP, WARNINGS, do
from exhibits import Keys
from layout import Bundle
from processes import ARCHIVE, OF_C, try_with_library
from programs import End, count_cores, differs, run
from scenarios import everybody, scenario
from model.log import read_log
from model.network import Header, make_network
from model.receipt import Receipt, receipt_of_log

OK, NO, MISUSE, FAULT, MEMORY, LENGTH, OTHER, NO_ORDER, Q0 = 0, 1, 2, 3, 4, 5, 7, 255, 60
# So many runs are drawn, in jobs of so many. The actuator as a process is asked of the files of the first ones.
RUNS, SHARE, BY_PROCESS = 1000, 20, 200
# What is drawn: generals, m, d, how many orders, the choice, the slot of version 2, and which of two seeds all keys are of. No two
# runs have one header, since nodes that run twice under one header may decide two orders.
NETWORKS = list(itertools.product(range(3, 8), (1, 2), (1, 2), (2, 3, 4), (0, 1), (None, 0, 1, 2, 3), (0, 1)))
MOST_GENERALS, MASTERS = 7, [bytes([it]) * 32 for it in (1, 2)]
# The bytes of the signature at the end of a receipt, in either version, and what docs/EMBED.md says of the stack of a call.
SIGNATURE, STACK = 16_512, 20 * 1024
# What in the archive or in an object would ask the system for memory.
ASKS = {"malloc", "calloc", "realloc", "free", "mmap", "brk", "sbrk", "aligned_alloc", "posix_memalign"}
# The bytes of the buffer of an actuator, of one that is too small, and of the longest input. So many steps are tried on the heap.
BUFFER, SMALL, MOST_BYTES, STEPS = 16 * 20 * 1024, 20_000, 16 * 18_000, 5_000
UNIT = 16


class Told(NamedTuple):
    """What sm_node_shown tells."""

    status: int
    order: int = NO_ORDER
    fault: int = 0


class File(NamedTuple):
    """A file of receipts, and what is to be told of it. If nothing is given, no other order may be shown."""

    name: str
    data: bytes
    wanted: Optional[Told] = None


def flipped(draws, data):
    """Bytes with one bit turned."""
    at = draws.below(len(data))
    return data[:at] + bytes([data[at] ^ 1 << draws.below(8)]) + data[at + 1 :]


class Scene:
    """A run: its header, its liars, the receipts of the others, and what these decided."""

    def __init__(self, program, number):
        self.draws = Draws(f"receipts {day()} {number}")
        generals, self.traitors, diameter, orders, choice, slot, self.master = NUMBERS[number]
        self.liars = some_of(self.draws, range(generals), self.draws.below(self.traitors + 1))
        self.correct = [it for it in range(generals) if it not in self.liars]
        told = [f"make 1 {it} {self.draws.below(orders)} 0" for it in range(1, generals)]
        scripts = {it: [] if it else told for it in self.liars}
        text = scenario(everybody(generals), self.traitors, diameter, self.draws.below(orders), scripts,
                        MASTERS[self.master].hex(), orders=orders, choice=choice, slot=slot)
        self.bundle = run(program, ["run"], text).wrote
        read = Bundle(self.bundle)
        self.header, logs = read.header, dict(read.exhibits)
        ends = [receipt_of_log(self.header, it, read_log(logs[it], self.header)) for it in self.correct]
        self.receipts, self.decided = [it.spell(self.header) for it in ends], {it.order for it in ends}
        self.front = 4 + len(self.header.spell())

    def other_order(self):
        """An order that no correct node decided."""
        return self.draws.one_of([it for it in range(self.header.network.orders) if it not in self.decided])

    def lie(self, general, order, header=None, master=None):
        """A receipt of no log, which a general signs."""
        header, entries = header or self.header, self.draws.below(100)
        orders = (order,) if self.draws.below(2) else ()
        said = Receipt(general, entries, bytes([self.draws.below(256)]) * 32, orders, order, b"")
        keys = KEYS[self.master if master is None else master, header.version]
        signature = keys.sign(general, header.leaf(None), header.head(general, entries, said.head().link))
        return dataclasses.replace(said, signature=signature).spell(header)

    def lies(self, *more):
        """Receipts of each liar: of two orders that are not the others', or of one, and of more orders."""
        orders = self.other_order(), self.other_order(), *more
        return [self.lie(it, order) for it in self.liars for order in orders]

    def joined(self, receipts):
        """Receipts one behind another, in any order. Some come twice."""
        again = some_of(self.draws, receipts, self.draws.below(3))
        return b"".join(shuffled(self.draws, [*receipts, *again]))

    def elsewhere(self):
        """The header of another run, with the seed of its keys: with a smaller m, in another slot, with other keys, or else with the
        other choice.
        """
        kind, net, header = self.draws.below(4), self.header.network, self.header
        if kind == 0 and header.version == 2:
            return dataclasses.replace(header, slot=self.draws.one_of([it for it in range(4) if it != header.slot])), self.master
        if kind == 1:
            other = 1 - self.master
            return dataclasses.replace(header, roots=KEYS[other, header.version].roots[: net.generals]), other
        numbers = (net.traitors - 1, net.choice) if kind == 2 else (net.traitors, 1 - net.choice)
        changed = make_network((net.generals, numbers[0], net.diameter, net.orders, numbers[1]), net.edges, True)
        return dataclasses.replace(header, network=changed), self.master

    def files(self):
        """All files of this run."""
        m = self.traitors
        many = some_of(self.draws, self.receipts, self.draws.one_of([m + 1, len(self.receipts)]))
        enough = Told(OK, min(self.decided)) if len(many) > m else None
        yield File("correct nodes", self.joined(many), enough or Told(NO))
        yield File("correct nodes and lies", self.joined([*many, *self.lies(*self.decided)]), enough)
        yield File("lies alone", self.joined(self.lies()), Told(NO) if self.liars else Told(FAULT, fault=Q0 + 1))
        bent = [it[:-SIGNATURE] + flipped(self.draws, it[-SIGNATURE:]) for it in self.receipts]
        few = some_of(self.draws, self.receipts, m)
        yield File("too few, twice, and bent ones", self.joined([*few, *few, *bent]), Told(NO))
        yield from self.files_of_others(many)
        whole = self.joined([*many, *self.lies()])
        yield File("cut", whole[: self.draws.below(len(whole))])
        yield File("a bit turned", flipped(self.draws, whole))
        yield File("a bit of a header turned", many[0] + flipped(self.draws, whole[: self.front]) + whole[self.front :])
        yield File("one signature for all", self.joined([it[:-SIGNATURE] + few[0][-SIGNATURE:] for it in self.receipts]), Told(NO))

    def files_of_others(self, many):
        """All receipts of another run: alone, behind some of this run, and under the header of this run."""
        (header, master), order = self.elsewhere(), self.other_order()
        every = [self.lie(it, order, header, master) for it in range(header.network.generals)]
        yield File("another run", self.joined(every), Told(OTHER))
        yield File("another run behind", self.joined(many) + every[0], Told(FAULT, fault=Q0 + 5))
        moved = [self.receipts[0][: self.front] + it[4 + len(header.spell()) :] for it in every]
        yield File("another run under this header", self.joined(moved), Told(NO))

    def too_many(self):
        """What m + 1 generals can do together: an order is shown that no correct node decided."""
        order, generals = self.other_order(), range(self.header.network.generals)
        lies = [self.lie(it, order) for it in some_of(self.draws, generals, self.traitors + 1)]
        return File("m + 1 liars", self.joined(lies), Told(OK, order))


# Who is asked.


def told_by_reference(run_id, data):
    """What the reference says that sm_node_shown tells. The fault of a header has its own number."""
    end = reference.answer(["receipts", "--run", run_id.hex()], data)
    if end.status != FAULT:
        shown = re.search(rb"^shown (\S+)$", end.wrote, re.M)[1]
        return Told(OK, int(shown)) if end.status == OK else Told(NO)
    name, number, inner = re.match(rb"fault ([QR])(\d)(?: H(\d+))?\n", end.said).groups()
    return Told(OTHER) if name == b"R" else Told(FAULT, fault=int(inner or Q0 + int(number)))


class Block(ctypes.Structure):
    """The sm_block of sm_heap.h."""

    _fields_ = [("ok", ctypes.c_bool), ("at", ctypes.c_void_p)]


class Library:
    """The functions of the archive and of embed/arena.c."""

    def __init__(self, shared):
        self.calls = ctypes.CDLL(shared)
        self.calls.sm_arena_most.restype = ctypes.c_size_t
        self.calls.rattle_alloc.restype = self.calls.rattle_realloc.restype = Block

    def told(self, run_id, data):
        order, fault = ctypes.c_uint32(77), ctypes.c_uint32(77)
        words = run_id, data, ctypes.c_size_t(len(data)), ctypes.byref(order), ctypes.byref(fault)
        return Told(self.calls.sm_node_shown(*words), order.value, fault.value)


def actuator_wrong(actuator, run_id, order, data, told):
    """None where the actuator as a process does what it has to do where the library tells so."""
    opens = told.status == OK and told.order == order
    shut = End(1, b"shut\n", f"status {told.status} fault {told.fault:02}\n".encode())
    return differs(run(actuator, [run_id.hex(), str(order)], data), End(0, b"open\n", b"") if opens else shut)


# Runs.


class Trial(NamedTuple):
    """What all jobs share."""

    program: str
    commands: set
    library: Library
    actuator: str

    def file_wrong(self, scene, file, by_process):
        """What is told of a file, and None where that is right."""
        run_id = scene.header.run_id
        told, wanted = self.library.told(run_id, file.data), told_by_reference(run_id, file.data)
        if told != wanted:
            return told, f"{told}, and the reference has {wanted}"
        if file.wanted is None and told.status == OK and told.order not in scene.decided:
            return told, f"{told}, and correct nodes decided {scene.decided}"
        if file.wanted not in (None, told):
            return told, f"{told}, not {file.wanted}"
        orders = (min(scene.decided), scene.other_order()) if by_process else ()
        wrong = (actuator_wrong(self.actuator, run_id, order, file.data, told) for order in orders)
        return told, next(filter(None, wrong), None)

    def receipt_wrong(self, scene):
        """None where the program makes the receipts of the correct nodes, if it has the command."""
        for general, wanted in zip(scene.correct, scene.receipts) if "receipt" in self.commands else ():
            end = run(self.program, ["receipt", "--general", str(general)], scene.bundle)
            if end != End(0, wanted, b""):
                return f"the receipt of {general}: status {end.status}, {len(end.wrote)} bytes"
        return None

    def try_run(self, number):
        """One run: what is wrong, and what was told of how many files."""
        scene, wrong, counts, by_process = Scene(self.program, number), [], collections.Counter(runs=1), number < BY_PROCESS
        if len(scene.decided) != 1:
            wrong.append(f"correct nodes decided {scene.decided}")
        if by_process:
            wrong += filter(None, [self.receipt_wrong(scene)])
        for file in [*scene.files(), scene.too_many()]:
            told, bad = self.file_wrong(scene, file, by_process)
            counts.update(files=1, **{f"status {told.status}": 1}, processes=2 * by_process)
            counts["opened"] += file.name.startswith("correct") and told.status == OK
            counts["opened by m + 1 liars"] += file.name == "m + 1 liars" and told.status == OK
            wrong += [f"run {number}, {file.name}: {bad}"] if bad else []
        return wrong, counts


def try_runs(first):
    """Some runs, in a process that has the trial of its parent."""
    return [THE_TRIAL.try_run(number) for number in range(first, min(RUNS, first + SHARE))]


def try_all_runs(tally, trial):
    """All runs, by as many processes as there are cores. The keys are made before."""
    global THE_TRIAL, KEYS, NUMBERS
    THE_TRIAL, counts = trial, collections.Counter()
    NUMBERS = some_of(Draws(f"receipts {day()}"), NETWORKS, RUNS)
    KEYS = {(at, version): Keys(it, version, MOST_GENERALS) for at, it in enumerate(MASTERS) for version in (1, 2)}
    with ProcessPoolExecutor(count_cores(), multiprocessing.get_context("fork")) as pool:
        for future in as_completed([pool.submit(try_runs, first) for first in range(0, RUNS, SHARE)]):
            for wrong, some in future.result():
                tally.hold("receipts", "; ".join(wrong) or None)
                counts.update(some)
    tally.count(counts["runs"])
    tally.note(f"seed {day()}: " + ", ".join(f"{counts[it]} {it}" for it in sorted(counts)))
    tally.hold("another order by m + 1 liars", None if counts["opened by m + 1 liars"] == RUNS else f"{counts}")


# The actuator as a process, its heap, its stack, and what it is built of.


def try_words(tally, actuator):
    """Words that name no run or no order, and inputs that can't be read whole."""
    good = "0" * 64, "1"
    wrong = [(), good[:1], (*good, "1"), ("0" * 63, "1"), ("0" * 65, "1"), ("A" * 64, "1"), ("g" * 64, "1"), ("", "1")]
    wrong += [("0" * 64, bad) for bad in ("", "15", "99", "100", "001", "-1", "+1", "1 ", "x", "\u0661")]
    for words in wrong:
        tally.hold(f"words {words}", differs(run(actuator, list(words)), End(1, b"shut\n", b"status 2 fault 00\n")))
    none, too_long = End(1, b"shut\n", b"status 3 fault 61\n"), End(1, b"shut\n", b"status 5 fault 00\n")
    for order in ("0", "00", "14", "09"):
        tally.hold(f"order {order}", differs(run(actuator, [good[0], order]), none))
    for length, wanted in ((MOST_BYTES - 1, none._replace(said=b"status 3 fault 62\n")), (MOST_BYTES, too_long), (MOST_BYTES + 1, too_long)):
        tally.hold(f"{length} bytes", differs(run(actuator, list(good), bytes(length)), wanted))
    with open(os.devnull, "wb") as no_input:
        tally.hold("an input that fails", differs(run(actuator, list(good), stdin=no_input), too_long))


def try_streams(tally, actuator, small, scene):
    """A file that opens, of which the actuator can't say so, and one for which there is too little memory."""
    told, words = scene.too_many(), [scene.header.run_id.hex()]
    words.append(str(told.wanted.order))
    tally.hold("a file that opens", differs(run(actuator, words, told.data), End(0, b"open\n", b"")))
    with open("/dev/full", "wb") as full:
        tally.hold("an output that is full", differs(run(actuator, words, told.data, stdout=full), End(1, b"", b"")))
    tally.hold("a small buffer", differs(run(small, words, told.data), End(1, b"shut\n", b"status 4 fault 00\n")))


def largest():
    """The run id and the receipts of 16 generals with the longest header, none of which holds."""
    header = Header(2, 3, make_network((16, 8, 8, 15, 1), everybody(16), True), tuple(bytes([it]) * 32 for it in range(16)))
    receipts = (Receipt(it, 2**64 - 1, bytes(32), tuple(range(15)), 14, bytes(SIGNATURE + 64)).spell(header) for it in range(16))
    return header.run_id, b"".join(receipts)


class Heap:
    """The heap of an actuator, and what each of its blocks has to have: its length, and the byte that it is filled with."""

    def __init__(self, library, draws):
        self.calls, self.draws, self.blocks, self.refused = library.calls, draws, {}, 0

    def put(self, block, length):
        """Takes a block that was given, and fills it. What is wrong with it, or None."""
        if block.at % UNIT or any(block.at < at + max(it, 1) and at < block.at + max(length, 1) for at, (it, _) in self.blocks.items()):
            return f"a block of {length} bytes at {block.at % UNIT} overlaps another, or is not aligned"
        byte = self.draws.below(256)
        ctypes.memset(block.at, byte, length)
        self.blocks[block.at] = length, byte
        return None

    def take(self, length):
        block = self.calls.rattle_alloc(ctypes.c_size_t(length), ctypes.c_size_t(UNIT))
        self.refused += not block.ok
        return self.put(block, length) if block.ok else None

    def change(self, at, length):
        """Makes a block longer or shorter. What was in it stays."""
        old, byte = self.blocks.pop(at)
        kept = min(old, length)
        block = self.calls.rattle_realloc(ctypes.c_void_p(at), *map(ctypes.c_size_t, (kept, length, UNIT)))
        self.refused += not block.ok
        if not block.ok:
            self.blocks[at] = old, byte
        elif ctypes.string_at(block.at, kept) != bytes([byte]) * kept:
            return f"a block of {old} bytes is another when it has {length}"
        return self.put(block, length) if block.ok else None

    def free(self, at):
        """Frees a block, whose bytes are as they were put."""
        length, byte = self.blocks.pop(at)
        wrong = None if ctypes.string_at(at, length) == bytes([byte]) * length else f"a block of {length} bytes was changed"
        self.calls.rattle_dealloc(ctypes.c_void_p(at))
        return wrong

    def step(self):
        """Any of the three calls. Seldom the block is as long as the buffer."""
        draws = self.draws
        length = draws.one_of([0, draws.below(100), draws.below(5000), draws.below(40_000), BUFFER if draws.is_one_in(20) else 1])
        kind, places = draws.below(4), sorted(self.blocks)
        if kind == 0 or not places:
            return self.take(length)
        at = draws.one_of([places[-1], draws.one_of(places)])
        return self.change(at, length) if kind == 1 else self.take(length) if kind == 2 and draws.below(2) else self.free(at)


def heap_wrong(library):
    """None where the heap keeps its rules in some steps, refuses what it has no room for, and is empty in the end."""
    heap = Heap(library, Draws("heap"))
    for number in range(STEPS):
        wrong = heap.step()
        if wrong:
            return f"step {number}: {wrong}"
    wrong = [heap.free(at) for at in shuffled(heap.draws, heap.blocks)]
    whole = heap.calls.rattle_alloc(ctypes.c_size_t(BUFFER - UNIT), ctypes.c_size_t(UNIT))
    more = heap.calls.rattle_alloc(ctypes.c_size_t(0), ctypes.c_size_t(UNIT))
    heap.calls.rattle_dealloc(ctypes.c_void_p(whole.at))
    is_right = whole.ok and not more.ok and more.at and 0 < heap.refused < STEPS // 2 and library.calls.sm_arena_most() == BUFFER
    return next(filter(None, wrong), None) or (None if is_right else f"{whole.ok}, {more.ok}, {heap.refused} refused")


def try_heap(tally, folder, library):
    """The heap of an actuator, and what the longest receipts take of it."""
    run_id, data = largest()
    told = library.told(run_id, data)
    most = library.calls.sm_arena_most()
    tally.note(f"16 receipts of the longest header, {len(data)} bytes, take {most} bytes of {BUFFER}")
    tally.hold("the longest receipts", None if told == Told(NO) and len(data) < MOST_BYTES else f"{told}, {len(data)} bytes")
    tally.hold("the heap", heap_wrong(library))
    tally.hold("the longest receipts once more", None if library.told(run_id, data) == Told(NO) else "the heap is not empty")


def symbols_wrong(folder):
    """None where neither the archive nor the objects of the actuator ask the system for memory."""
    for name in ("actuator", "arena"):
        do([*OF_C, "-c", os.path.join(EMBED, f"{name}.c"), "-o", os.path.join(folder, f"{name}.o")])
    files = [ARCHIVE, os.path.join(folder, "actuator.o"), os.path.join(folder, "arena.o")]
    asked = {line.split()[-1] for it in files for line in do(["nm", "--undefined-only", it]).splitlines() if line.strip()}
    return f"{asked & ASKS}" if asked & ASKS else None if "rattle_alloc" in asked else f"{asked}"


def stack_wrong(tally, folder, scene):
    """None where one call needs no more stack than is said, by bench/receipts.c."""
    measure, path, file = os.path.join(folder, "measure"), os.path.join(folder, "file"), scene.too_many()
    sources = [os.path.join(TOP, "bench", "receipts.c"), os.path.join(EMBED, "arena.c")]
    do([*OF_C, *sources, ARCHIVE, "-o", measure])
    with open(path, "wb") as kept:
        kept.write(file.data)
    told = dict(line.split() for line in do([measure, scene.header.run_id.hex(), path]).splitlines())
    tally.note(f"one call: {told}")
    return None if told["order"] == str(file.wanted.order) and int(told["stack"]) <= STACK else f"{told}"


def build_all(folder):
    """The functions as a shared library, and the actuator: as it is, under the sanitizers, and with a small buffer."""
    sources = [os.path.join(EMBED, f"{name}.c") for name in ("actuator", "arena")]
    shared = os.path.join(folder, "libsm_node.so")
    whole = ["-Wl,--whole-archive", ARCHIVE, "-Wl,--no-whole-archive"]
    do(["cc", "-std=c11", "-O2", *WARNINGS, "-fPIC", "-shared", sources[1], *whole, "-o", shared])
    flags = {"actuator": [], "sanitized": SANITIZERS, "small": [f"-DSM_ARENA_BYTES={SMALL}"]}
    for name, more in flags.items():
        do([*OF_C, *more, *sources, ARCHIVE, "-o", os.path.join(folder, name)])
    return Library(shared), *(os.path.join(folder, name) for name in flags)


def try_built(program, tally, folder):
    """All trials over the archive."""
    library, actuator, sanitized, small = build_all(folder)
    try_heap(tally, folder, library)
    trial = Trial(program, tally.commands, library, actuator)
    try_all_runs(tally, trial)
    scene = Scene(program, 0)
    for made in (actuator, sanitized):
        try_words(tally, made)
        try_streams(tally, made, small, scene)
    tally.hold("the stack of a call", stack_wrong(tally, folder, scene))
    if shutil.which("nm"):
        tally.hold("what asks for memory", symbols_wrong(folder))
    else:
        tally.note("left out: what asks for memory, as nm is not there")


def trials(program, tally):
    if "run" in tally.commands:
        try_with_library(tally, lambda folder: try_built(program, tally, folder))

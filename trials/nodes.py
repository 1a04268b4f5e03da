"""The library of nodes for C (embed/sm_node.h), call by call.

The archive is crates/sm_node/out/libsm_node.a, which `rt lib` builds in crates/sm_node; without it, or without a
compiler, nothing is tried, and a line says so. The calls are made by ctypes, over a heap that refuses (refusing_heap.c), in a
thread with little stack. The bundle that two nodes make is that of the scenario. Besides, a program in C keeps a state (state.c),
and programs call both libraries. datagrams.py has nodes as processes.
"""
import concurrent.futures
import ctypes
import hashlib
import os
import struct
import threading

from embed import ARCHIVE as JOBS, EMBED, SANITIZERS, STACK, TOP, WARNINGS, do
from keepers import StateKeeper, seeds_wrong
from layout import Bundle
from processes import ARCHIVE, FOUR, OF_C, build_programs, seed_of, try_with_library
from programs import run, side_by_side
from scenarios import chain, scenario

DONE, NO, MISUSE, BAD, REFUSED, SHORT, OTHER = 0, 1, 2, 3, 4, 5, 7
NO_ORDER = 255
# The bytes of a receipt of two neighbours in version 1.
RECEIPT = 16_567 + 2 + 2 * 32
# One call of each library: the root of the keys of general 0, and what is wrong with a bundle of no bytes.
BOTH = r"""
#include "sm_embed.h"
#include "sm_node.h"
#include <stdio.h>
int main(void) {
    const uint8_t seed[33] = SEED;
    uint8_t root[32], room[100];
    sm_node keys = {0};
    sm_answer answer = {0};
    size_t count;
    if (sm_audit(seed, 0, NULL, &answer) != SM_FAULT || sm_node_keys(&keys, seed, 1, root) != SM_OK) return 1;
    if (sm_answer_text(&answer, room, sizeof room, &count) != SM_OK) return 1;
    sm_node_free(&keys);
    sm_answer_free(&answer);
    for (int place = 0; place < 32; place++) printf("%02x", root[place]);
    printf("\n%.*s\n", (int)count, (const char *)room);
    return 0;
}
"""


# ---- programs


def ends_with(status, words):
    """None where a program ends with a status, and says why on standard error and nothing else."""
    end = run(words[0], words[1:])
    right = end.status == status and not end.wrote and end.said and b"Success" not in end.said
    return None if right else f"{words[len(words) - 4 :]}: {end}"


def words_wrong(made, folder):
    """None where the program that keeps states refuses wrong words."""
    place = os.path.join(folder, "w")
    os.mkdir(place)
    states = [("16", place, "0" * 64), ("0", place, "0" * 63), ("0", place, "0" * 65), ("0", place, "A" * 64)]
    wrong = [(1, [*made["state"], "catch-up", place, *words]) for words in [*states, ("0", place, "0" * 64)]]
    wrong += [(2, [*made["state"], "put", place, *states[0]]), (2, [*made["state"], "take", place, *states[0]])]
    wrong += [(2, made["state"])]
    return "; ".join(filter(None, side_by_side(lambda of: ends_with(*of), wrong))) or None


def both_wrong(program, folder):
    """None where one program calls both libraries: it has all of both archives, in which no name may stand twice."""
    made, source = os.path.join(folder, "both.built"), os.path.join(folder, "both.c")
    seed = "".join(f"\\{byte:03o}" for byte in seed_of(0))
    with open(source, "w", encoding="ascii") as text:
        text.write(BOTH.replace("SEED", f'"{seed}"'))
    both = ["-Wl,--whole-archive", ARCHIVE, JOBS, "-Wl,--no-whole-archive"]
    do([*OF_C, source, os.path.join(EMBED, "heap.c"), *both, "-o", made])
    told, header = run(made, []), run(program, ["run"], FOUR.text()).wrote
    root = Bundle(header).front[4 + 7 + 2 * 6 :][:32].hex()
    wanted = f"{root}\n{run(program, ['audit']).said.decode()}"
    return None if (told.status, told.wrote.decode()) == (0, wanted) else f"{told}, not {wanted}"


def agree_wrong(folder):
    """None where the four nodes of agree.c agree on value 2, under the sanitizers too."""
    source, made = os.path.join(EMBED, "agree.c"), os.path.join(folder, "agree.built")
    for flags in ([], SANITIZERS):
        do([*OF_C, *flags, source, os.path.join(EMBED, "heap.c"), ARCHIVE, JOBS, "-o", made])
        end = run(made, [])
        if end.status != 0 or end.said or end.wrote.split(b"\n")[1:] != [b"verdict agreed 2", b"end", b""]:
            return f"{end}"
    return None


def nulls_wrong(folder):
    """None where null pointers, versions and texts are as the headers say."""
    made = os.path.join(folder, "nulls.built")
    do([*OF_C, os.path.join(TOP, "trials", "nulls.c"), os.path.join(EMBED, "heap.c"), ARCHIVE, JOBS, "-o", made])
    told = run(made, [])
    return None if told.status == 0 else told.wrote.decode()


# ---- call by call


class Library:
    """The functions, over a heap that refuses from the Nth allocation on where `left` says so."""

    def __init__(self, folder):
        made = os.path.join(folder, "libsm_node.so")
        heap = os.path.join(TOP, "trials", "refusing_heap.c")
        whole = ["-Wl,--whole-archive", ARCHIVE, "-Wl,--no-whole-archive"]
        do(["cc", "-std=c11", "-O2", *WARNINGS, "-fPIC", "-shared", heap, *whole, "-o", made])
        self.calls = ctypes.CDLL(made)
        self.left = ctypes.c_long.in_dll(self.calls, "left")
        self.blocks = ctypes.c_long.in_dll(self.calls, "blocks")

    def call(self, name, *words):
        """What a call answers."""
        return getattr(self.calls, name)(*words)

    def refused(self, name, *words):
        """What a call answers at last, which is made again for each allocation that is refused, and how often it was."""
        for count in range(1 << 20):
            self.left.value = count
            status = self.call(name, *words)
            self.left.value = -1
            if status != REFUSED:
                return status, count
        return REFUSED, count


class Run:
    """Two neighbours, driven in one process: the commander, whose order is 1, and general 1."""

    def __init__(self, library, refuses):
        self.library, self.refuses, self.wrong = library, refuses, []
        self.nodes = [ctypes.c_void_p(None), ctypes.c_void_p(None)]
        self.fault, self.pair = ctypes.c_uint32(77), (ctypes.c_uint32 * 2)(77, 77)
        self.header = self.make_header(1, 0)

    def make_header(self, version, slot):
        """The bytes of a header of the two, by the roots of their keys."""
        roots = b""
        for general in range(2):
            keys, root = self.keys(seed_of(general), version)
            self.library.call("sm_node_free", ctypes.byref(keys))
            roots += root
        return self.header_of(DONE, (version, slot, 2, 0, 1, 2, 0), [(1, 0)], roots)

    def keys(self, seed, version, status=DONE):
        """Keys, and their root."""
        place, root = ctypes.c_void_p(None), ctypes.create_string_buffer(b"\7" * 32, 32)
        self.want(status, "sm_node_keys", ctypes.byref(place), seed, version, root)
        return place, root.raw

    def header_of(self, status, of, edges, roots):
        """The bytes of a header, or none."""
        ends = b"".join(map(bytes, edges))
        sizes = ctypes.c_size_t(len(edges)), ctypes.c_size_t(len(roots) // 32)
        return self.text(status, "sm_node_header", bytes(of), ends, sizes[0], roots, sizes[1], tail=True)

    def do(self, name, *words):
        """The status of a call; where memory is refused it is made again until it is not."""
        if not self.refuses:
            return self.library.call(name, *words)
        return self.library.refused(name, *words)[0]

    def want(self, status, name, *words):
        """Makes a call, which has to answer so."""
        told = self.do(name, *words)
        if told != status:
            self.wrong.append(f"{name} answers {told}, not {status}")

    def text(self, status, name, *words, tail=False):
        """The bytes of a call, which has to answer so; where it has a tail, a fault is told too, and a pair behind it."""
        count, ends = ctypes.c_size_t(77), [ctypes.byref(self.fault), ctypes.byref(self.pair)] if tail else []
        self.want(SHORT if status == DONE else status, name, *words, b"", ctypes.c_size_t(0), ctypes.byref(count), *ends)
        if status != DONE:
            return b""
        room = ctypes.create_string_buffer(b"\xa5" * (count.value + 3), count.value + 3)
        size = ctypes.c_size_t(count.value + 3)
        self.want(DONE, name, *words, room, size, ctypes.byref(count), *ends)
        if room.raw[count.value :] != b"\xa5" * 3:
            self.wrong.append(f"{name} writes behind its bytes")
        return room.raw[: count.value]

    def at(self, general):
        return ctypes.byref(self.nodes[general])

    def begin(self, general, status=DONE, header=None, order=None, seed=None, version=1):
        """A node is made of keys of its own, or not."""
        keys, _ = self.keys(seed_of(general) if seed is None else seed, version)
        self.make(general, keys, status, header, order)
        self.library.call("sm_node_free", ctypes.byref(keys))

    def make(self, general, keys, status=DONE, header=None, order=None):
        """A node is made of keys, or not."""
        given = self.header if header is None else header
        order = (1 if general == 0 else NO_ORDER) if order is None else order
        ends = ctypes.byref(keys), order, ctypes.byref(self.fault)
        self.want(status, "sm_node_new", self.at(general), given, ctypes.c_size_t(len(given)), general, *ends)

    def hear(self, to, given, status=DONE, sender=None):
        """Bytes are handed in as of the other."""
        sender = 1 - to if sender is None else sender
        size = ctypes.c_size_t(len(given))
        self.want(status, "sm_node_hear", self.at(to), sender, given, size, ctypes.byref(self.fault))

    def told(self, fault):
        """The last call told this fault."""
        if self.fault.value != fault:
            self.wrong.append(f"the fault {self.fault.value}, not {fault}")

    def apart(self, pair):
        """The last call told this pair."""
        if list(self.pair) != pair:
            self.wrong.append(f"the pair {list(self.pair)}, not {pair}")

    def all_calls(self):
        """The run of the two, whose logs are its answer."""
        for general in range(2):
            self.begin(general)
        self.ask(0, round=0)
        for general in range(2):
            self.want(DONE, "sm_node_begin_round", self.at(general))
        self.ask(0, round=1, awaits=[1], lacks=[1], may_end=1)
        frames = [self.text(DONE, "sm_node_send", self.at(general), 1 - general) for general in range(2)]
        for general in range(2):
            self.hear(general, frames[1 - general])
            self.ask(general, round=1, awaits=[1 - general], may_end=1)
            self.want(DONE, "sm_node_end_round", self.at(general))
            self.ask(general, round=1, is_over=1)
            self.want(DONE, "sm_node_finish", self.at(general))
        logs = [self.text(DONE, "sm_node_log", self.at(general)) for general in range(2)]
        self.receipts([self.text(DONE, "sm_node_receipt", self.at(general)) for general in range(2)])
        orders = [self.order(general) for general in range(2)]
        if orders != [1, 1]:
            self.wrong.append(f"they decide {orders}")
        self.ask(0, MISUSE)
        return logs, self.bundle(DONE, logs)

    def receipts(self, both):
        """What the receipts of the two show, of whom nobody is planned to be faulty; and files that show nothing."""
        one, other = both
        bent, header = one[:-1] + bytes([one[-1] ^ 1]), 4 + len(self.header)
        if [len(it) for it in both] != [RECEIPT] * 2 or any(it[:header] != b"SMR1" + self.header for it in both):
            self.wrong.append("the receipts are others")
        for given in (one, other, one + other, other + one, one + one, bent + other):
            self.shown(DONE, given, order=1)
        self.shown(NO, bent)
        for given, fault in ((b"", 61), (one[:-1], 61), (one + b"SMR", 61), (b"SMR2" + one[4:], 10), (b"SMR3" + one[4:], 62)):
            self.shown(BAD, given, fault)
        for given, fault in ((one[:header] + b"\2" + one[header + 1 :], 64), (one + other[:9] + b"\1" + other[10:], 65)):
            self.shown(BAD, given, fault)
        self.shown(OTHER, one, run_id=bytes(32))
        self.shown(BAD, b"", 61, run_id=bytes(32))

    def shown(self, status, given, fault=0, order=NO_ORDER, run_id=None):
        """What receipts show of the run of the header, or of another."""
        told, size, run_id = ctypes.c_uint32(77), ctypes.c_size_t(len(given)), run_id or self.run_id()
        self.want(status, "sm_node_shown", run_id, given, size, ctypes.byref(told), ctypes.byref(self.fault))
        self.told(fault)
        if told.value != order:
            self.wrong.append(f"the order {told.value}, not {order}")

    def number(self, status, name, *words, kind=ctypes.c_uint32):
        """The number that a call tells, which has to answer so; 0 if it is not done."""
        told = kind(77)
        self.want(status, name, *words, ctypes.byref(told))
        if status != DONE and told.value:
            self.wrong.append(f"{name} tells {told.value}")
        return told.value

    def ask(self, general, status=DONE, round=0, awaits=(), lacks=(), may_end=0, is_over=0):
        """A node tells its round, of which generals it awaits and lacks a frame, and what may end."""
        of = self.at(general)
        told = [self.number(status, f"sm_node_{name}", of) for name in ("round", "may_end", "is_over")]
        for name in ("awaits", "lacks"):
            told.append([it for it in range(16) if self.number(status, f"sm_node_{name}", of, it)])
            self.number(MISUSE, f"sm_node_{name}", of, 16)
        if told != [round, may_end, is_over, list(awaits), list(lacks)]:
            self.wrong.append(f"general {general} tells {told}")

    def plan(self, status=DONE, general=0):
        """What is told of the header: its numbers, the rounds, the neighbours of a general, and the longest frame."""
        at, told = (self.header, ctypes.c_size_t(len(self.header))), ctypes.create_string_buffer(b"\7" * 7, 7)
        self.want(status, "sm_node_header_numbers", *at, told, ctypes.byref(self.fault))
        tell = lambda name, *words, kind=ctypes.c_uint32: self.tell(status, name, *at, *words, kind=kind)
        return told.raw, tell("sm_node_rounds"), tell("sm_node_neighbours", general), tell("sm_node_frame_most", kind=ctypes.c_size_t)

    def tell(self, status, name, *words, kind):
        """The number that a call on a header tells, which has to answer so."""
        told = kind(77)
        self.want(status, name, *words, ctypes.byref(told), ctypes.byref(self.fault))
        return told.value

    def order(self, general):
        """The order that one decided for."""
        order = ctypes.c_uint32(77)
        self.want(DONE, "sm_node_order", self.at(general), ctypes.byref(order))
        return order.value

    def heads(self, given):
        """The head of a frame, as its run id and its numbers, or the fault. What was there stays where there is a fault."""
        head = ctypes.create_string_buffer(b"\7" * 48, 48)
        status = self.do("sm_node_frame_head", given, ctypes.c_size_t(len(given)), head, ctypes.byref(self.fault))
        if status == BAD and head.raw == b"\7" * 48:
            return self.fault.value
        return (head.raw[:32], *struct.unpack("=4I", head.raw[32:])) if (status, self.fault.value) == (DONE, 0) else None

    def run_id(self, status=DONE):
        """The run id of the header. What was there stays where the call is not done."""
        told = ctypes.create_string_buffer(b"\7" * 32, 32)
        self.want(status, "sm_node_run_id", self.header, ctypes.c_size_t(len(self.header)), told, ctypes.byref(self.fault))
        return told.raw

    def bundle(self, status, logs, faulty=0, generals=(0, 1), cut=0, parted=0):
        """The bytes of a bundle, or none."""
        sizes = b"".join(g.to_bytes(8, "little") + len(log).to_bytes(8, "little") for g, log in zip(generals, logs))
        whole = b"".join(logs)
        whole = whole[: len(whole) - cut]
        words = (self.header, ctypes.c_size_t(len(self.header)), faulty, parted, sizes, ctypes.c_size_t(len(logs)))
        return self.text(status, "sm_node_bundle", *words, whole, ctypes.c_size_t(len(whole)), tail=True)

    def free(self):
        for general in range(2):
            self.library.call("sm_node_free", self.at(general))


def calls_wrong(program, library, refuses):
    """None where two nodes that are driven by calls make the bundle of the scenario."""
    two = Run(library, refuses)
    _, bundle = two.all_calls()
    two.free()
    wanted = run(program, ["run"], scenario([(0, 1)], 0, 1, 1)).wrote
    wrong = two.wrong if bundle == wanted else [*two.wrong, "the bundle is another"]
    return "; ".join(wrong) or (None if library.blocks.value == 0 else f"{library.blocks.value} blocks are left")


def nothing_there(two):
    """Each call but that which makes a node is refused where none is."""
    for name in ("begin_round", "end_round", "finish"):
        two.want(MISUSE, f"sm_node_{name}", two.at(0))
    for name, words in (("send", (1,)), ("log", ()), ("receipt", ())):
        two.text(MISUSE, f"sm_node_{name}", two.at(0), *words)
    two.want(MISUSE, "sm_node_order", two.at(0), ctypes.byref(ctypes.c_uint32()))
    two.hear(0, b"", MISUSE)
    two.library.call("sm_node_free", two.at(0))


def bad_beginnings(two):
    """Nodes that don't begin, with the fault, and one that stands already."""
    cases = [({"header": b""}, 9), ({"header": b"\3" + two.header[1:]}, 10), ({"header": two.header + b"\0"}, 12)]
    cases += [({"order": NO_ORDER}, 13), ({"order": 2}, 13), ({"seed": seed_of(1)}, 14), ({"version": 2}, 16)]
    for words, fault in cases:
        two.begin(0, BAD, **words)
        two.told(fault)
    two.begin(0, MISUSE, order=16)
    two.begin(0)
    two.begin(0, MISUSE)


def all_slots(two):
    """One set of keys makes a node in each slot but those that are not above the last. It is no node, and no node is keys."""
    headers, (keys, root) = [two.make_header(2, slot) for slot in range(4)], two.keys(seed_of(0), 2)
    two.make(0, keys, BAD, headers[0], 2)
    two.told(13)
    for slot, fault in ((0, 0), (0, 17), (2, 0), (0, 17), (1, 17), (2, 17), (3, 0), (3, 17)):
        two.make(0, keys, BAD if fault else DONE, headers[slot])
        two.told(fault)
        two.library.call("sm_node_free", two.at(0))
    two.want(MISUSE, "sm_node_keys", ctypes.byref(keys), seed_of(0), 2, ctypes.create_string_buffer(32))
    two.want(MISUSE, "sm_node_begin_round", ctypes.byref(keys))
    two.want(MISUSE, "sm_node_finish", ctypes.byref(keys))
    two.number(MISUSE, "sm_node_round", ctypes.byref(keys))
    two.make(0, ctypes.c_void_p(None), MISUSE, headers[3])
    two.library.call("sm_node_free", ctypes.byref(keys))
    if root != headers[0][-64:-32]:
        two.wrong.append("another root")
    keys, _ = two.keys(seed_of(0), 1)
    for fault in (0, 17):
        two.make(0, keys, BAD if fault else DONE)
        two.told(fault)
        two.make(0, two.nodes[0], MISUSE, headers[3]) if fault else None
        two.library.call("sm_node_free", two.at(0))
    two.make(0, keys, BAD, headers[1])
    two.told(16)
    two.library.call("sm_node_free", ctypes.byref(keys))
    for version in (0, 3, 2**32 - 1):
        if two.keys(seed_of(0), version, MISUSE)[1] != b"\7" * 32:
            two.wrong.append("the root of keys that are not there")


def bad_rounds(two):
    """Calls in a wrong order, and frames that aren't taken."""
    two.begin(1)
    for name in ("end_round", "finish"):
        two.want(MISUSE, f"sm_node_{name}", two.at(0))
    two.text(MISUSE, "sm_node_send", two.at(0), 1)
    two.hear(0, b"", BAD)
    two.told(21)
    for general in range(2):
        two.want(DONE, "sm_node_begin_round", two.at(general))
        two.want(MISUSE, "sm_node_begin_round", two.at(general))
    frame = two.text(DONE, "sm_node_send", two.at(0), 1)
    for to in (0, 2, 16, 2**32 - 1):
        two.text(MISUSE, "sm_node_send", two.at(0), to)
    two.hear(1, frame, MISUSE, 16)
    bent = {place: frame[:place] + bytes([frame[place] ^ 1]) + frame[place + 1 :] for place in (4, 35, 36, 37, 38)}
    cases = [(frame, 1, 21), (b"", 0, 23), (b"SMF2" + frame[4:], 0, 24), (frame + b"\0", 0, 25)]
    cases += [(bent[4], 0, 26), (bent[35], 0, 26), (bent[36], 0, 27), (bent[37], 0, 28), (bent[38], 0, 28)]
    for given, sender, fault in cases:
        two.hear(1, given, BAD, sender)
        two.told(fault)
    two.hear(1, frame)
    two.hear(1, frame, BAD)
    two.told(22)
    heads = [(frame, (two.run_id(), 1, 0, 1, 1)), (frame[:41], (two.run_id(), 1, 0, 1, 1)), (b"", 23), (frame[:40], 23)]
    heads += [(b"SMF", 23), (b"SMF2", 24), (b"SMF2" + frame[4:], 24), (bytes(50), 24)]
    heads += [(b"SMF1" + bytes(range(32)) + b"\xff\xfe\xfd\xfc\xfb", (bytes(range(32)), 255, 254, 253, 0xFCFB))]
    for given, wanted in heads:
        if two.heads(given) != wanted:
            two.wrong.append(f"the head {two.heads(given)}, not {wanted}")


def bad_ends(two):
    """A second end, and bundles that aren't made."""
    two.want(DONE, "sm_node_end_round", two.at(0))
    two.want(MISUSE, "sm_node_begin_round", two.at(0))
    for name in ("log", "receipt"):
        two.text(MISUSE, f"sm_node_{name}", two.at(0))
    two.want(DONE, "sm_node_finish", two.at(0))
    two.want(MISUSE, "sm_node_finish", two.at(0))
    two.hear(0, b"", MISUSE)
    log = two.text(DONE, "sm_node_log", two.at(0))
    for status, words, fault in (
        (MISUSE, {"logs": [log], "faulty": 1 << 16}, 0),
        (MISUSE, {"logs": [log], "generals": [16]}, 0),
        (MISUSE, {"logs": [log], "cut": 1}, 0),
        (BAD, {"logs": [log], "faulty": 4}, 44),
        (BAD, {"logs": [log], "generals": [2]}, 47),
        (BAD, {"logs": [log, b""], "generals": [1, 0]}, 49),
    ):
        two.bundle(status, **words)
        two.told(fault)
        two.apart([0, 0])


def bad_walks(two):
    """Bundles of three in a line, where d is 1: the ends have no walk without the middle, and with him one of 2 edges.
    A bundle that may be parted has no walks then, and else those of any bundle."""
    two.header = two.header_of(DONE, (1, 0, 3, 0, 1, 2, 0), chain(3), bytes(range(96)))
    for faulty, fault in ((2, 31), (0, 32)):
        two.bundle(BAD, [], faulty)
        two.told(fault)
        two.apart([0, 2])
        for parted in (1, 2**32 - 1):
            made = two.bundle(DONE, [], faulty, parted=parted)
            if made != b"SMB1" + two.header + bytes([0, faulty, 0, 0]):
                two.wrong.append(f"a parted bundle {made[4 + len(two.header) :]}")
            two.apart([0, 0])
    if two.bundle(DONE, [], 4, parted=1) != two.bundle(DONE, [], 4):
        two.wrong.append("a bundle that is not parted is another")
    two.bundle(BAD, [], 8, parted=1)
    two.told(44)
    two.header = two.header_of(DONE, (1, 0, 4, 0, 1, 2, 0), [(0, 1), (0, 2), (0, 3)], bytes(range(128)))
    for faulty, fault, pair in ((0, 32, [1, 2]), (1, 31, [1, 2]), (4, 32, [1, 3]), (3, 31, [2, 3])):
        two.bundle(BAD, [], faulty)
        two.told(fault)
        two.apart(pair)


def plans(two):
    """What is told of headers, and of bytes that are none."""
    two.header = two.header_of(DONE, (2, 3, 4, 2, 3, 5, 1), [(0, 1), (1, 2), (3, 1)], bytes(range(128)))
    for general, near in ((0, 2), (1, 13), (2, 2), (3, 2), (4, 0), (15, 0)):
        wanted = bytes([2, 3, 4, 2, 3, 5, 1]), 5, near, 41 + 5 * (6 + 16_577 * 5)
        if two.plan(general=general) != wanted:
            two.wrong.append(f"the plan {two.plan(general=general)}, not {wanted}")
    two.tell(MISUSE, "sm_node_neighbours", two.header, ctypes.c_size_t(len(two.header)), 16, kind=ctypes.c_uint32)
    if two.run_id() != hashlib.sha256(b"\x31" + two.header).digest():
        two.wrong.append("the run id is another")
    two.header += b"\0"
    if two.run_id(BAD) != b"\7" * 32:
        two.wrong.append("a run id of bytes that are no header")
    two.told(12)
    if two.plan(BAD) != (b"\7" * 7, 0, 0, 0):
        two.wrong.append(f"the plan of bytes that are no header {two.plan(BAD)}")
    two.told(12)


def misuse_wrong(library):
    """None where calls that may not be made answer so."""
    two = Run(library, False)
    for step in (nothing_there, all_slots, bad_beginnings, bad_rounds, bad_ends, bad_walks, plans):
        step(two)
    two.free()
    return "; ".join(two.wrong) or (None if library.blocks.value == 0 else f"{library.blocks.value} blocks are left")


def refuse_each(two, general, name, between):
    """Has a call refused each allocation in turn until it is done, and looks at what holds between the refusals."""
    for left in range(1000):
        two.library.left.value = left
        status = two.library.call(name, two.at(general))
        two.library.left.value = -1
        if status == DONE and left > 0:
            return
        if status != REFUSED:
            break
        between()
    two.wrong.append(f"{name} answers {status} with {left} allocations")


def halves_wrong(library):
    """None where a round that is half begun, or half ended, is gone on with by the same call alone."""
    two = Run(library, False)

    def only_begins():
        two.text(MISUSE, "sm_node_send", two.at(0), 1)
        two.hear(0, b"", BAD)
        two.told(21)
        two.ask(0, round=two.number(DONE, "sm_node_round", two.at(0)))
        for name in ("end_round", "finish"):
            two.want(MISUSE, f"sm_node_{name}", two.at(0))

    def only_ends():
        two.ask(1, round=1, may_end=1)
        for name in ("begin_round", "finish"):
            two.want(MISUSE, f"sm_node_{name}", two.at(1))

    two.begin(0)
    two.begin(1)
    refuse_each(two, 0, "sm_node_begin_round", only_begins)
    two.want(DONE, "sm_node_begin_round", two.at(1))
    two.hear(1, two.text(DONE, "sm_node_send", two.at(0), 1))
    refuse_each(two, 1, "sm_node_end_round", only_ends)
    two.want(DONE, "sm_node_finish", two.at(1))
    two.free()
    return "; ".join(two.wrong) or (None if library.blocks.value == 0 else f"{library.blocks.value} blocks are left")


def header_wrong(library):
    """None where a header of version 2 begins as it has to, and bad numbers have their faults, the first of several."""
    two = Run(library, False)
    header = two.make_header(2, 1)
    if header[:10] != bytes([2, 1, 2, 0, 1, 2, 0, 1, 0, 1]):
        two.wrong.append(f"the header {header[:10]}")
    cases = [((1, 0, 1, 0, 1, 2, 0), 64, 1), ((1, 0, 2, 9, 1, 2, 0), 64, 3), ((1, 0, 2, 0, 0, 2, 0), 64, 4)]
    cases += [((1, 0, 2, 8, 15, 2, 0), 64, 5), ((1, 0, 2, 0, 1, 1, 0), 64, 6), ((1, 0, 2, 0, 1, 2, 2), 64, 7)]
    cases += [((1, 0, 2, 0, 1, 2, 0), 32, 8), ((2, 4, 2, 0, 1, 2, 0), 64, 11), ((2, 4, 2, 0, 1, 2, 0), 32, 8)]
    cases += [((version, 0, 2, 0, 1, 2, 0), 32, 10) for version in (0, 3)] + [((3, 0, 2, 0, 1, 2, 2), 64, 7)]
    for of, roots, fault in cases:
        two.header_of(BAD, of, [(0, 1)], bytes(roots))
        two.told(fault)
    for edges in ([(0, 2)], [(0, 0)], [(0, 1), (1, 0)]):
        two.header_of(BAD, (1, 0, 2, 0, 1, 2, 0), edges, bytes(64))
        two.told(2)
    for roots, pair in ((bytes(96), [0, 1]), (bytes(range(32)) + bytes(64), [1, 2]), (bytes(32) + bytes(range(32)) + bytes(32), [0, 2])):
        two.header_of(BAD, (1, 0, 3, 0, 1, 2, 0), [(0, 1)], roots)
        two.told(15)
        two.apart(pair)
    return "; ".join(two.wrong) or None


def with_little_stack(call, *words):
    """What a call answers, made in a thread with no more stack than a call takes."""
    kept = threading.stack_size(STACK)
    try:
        with concurrent.futures.ThreadPoolExecutor(1) as pool:
            return pool.submit(call, *words).result()
    finally:
        threading.stack_size(kept)


def try_built(program, tally, folder):
    """All trials over the archive."""
    made, library = build_programs(folder), Library(folder)
    tally.hold("wrong words", words_wrong(made, folder))
    tally.hold("seeds of a state", seeds_wrong(StateKeeper(made), os.path.join(folder, "kept")))
    tally.hold("calls", with_little_stack(calls_wrong, program, library, False))
    tally.hold("calls, memory", with_little_stack(calls_wrong, program, library, True))
    for name, wrong in (("misuse", misuse_wrong), ("halves of rounds", halves_wrong), ("headers", header_wrong)):
        tally.hold(name, with_little_stack(wrong, library))
    if os.path.exists(JOBS):
        tally.hold("both libraries", both_wrong(program, folder))
        tally.hold("four nodes in one program", agree_wrong(folder))
        tally.hold("null pointers", nulls_wrong(folder))
        tally.count(3)
    else:
        tally.note("left out: both libraries in one program, as crates/sm_embed/out/libsm_embed.a is not there")
    tally.count(24)


def trials(program, tally):
    try_with_library(tally, lambda folder: try_built(program, tally, folder))

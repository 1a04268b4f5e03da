"""What the tests share: the examples, the reference, and runs of four nodes by calls and by a scenario's text."""

import functools
import hashlib
import itertools
import pathlib
import sys
import unittest
from typing import Dict, List, NamedTuple, Optional, Tuple

import vamuretu
from vamuretu import _libraries

TOP = pathlib.Path(__file__).resolve().parents[3]
EXAMPLES = TOP / "examples"
sys.path.insert(0, str(TOP / "reference"))
import sm  # noqa: E402


def needs(name: str):
    """Leaves a class of tests out, with a message, where a shared library is missing."""
    try:
        _libraries.library(name)
    except vamuretu.LibraryMissing as told:
        return unittest.skip(str(told))
    return lambda tests: tests


@functools.lru_cache(maxsize=None)
def answer(words: Tuple[str, ...], given: bytes) -> Tuple[int, bytes, bytes]:
    """The status, the output and the line of standard error of the reference."""
    return sm.answer(list(words), given)


def seed_of(general: int) -> bytes:
    """The seed of a node (general) of a scenario whose seed is zero, by docs/FORMATS.md."""
    return hashlib.sha256(b"\x30" + bytes(32) + bytes([general])).digest()


class Four(NamedTuple):
    """A run of four nodes, of which some never begin."""

    edges: List[Tuple[int, int]]
    diameter: int
    orders: int
    order: int
    silent: Tuple[int, ...] = ()
    slot: Optional[int] = None

    def scenario(self) -> bytes:
        """The text of the scenario that says the same."""
        lines = ["generals 4", *(f"edge {a} {b}" for a, b in self.edges), "traitors 1", f"diameter {self.diameter}"]
        lines += [f"orders {self.orders}", "choice 0", f"order {self.order}", f"seed {'0' * 64}"]
        lines += [] if self.slot is None else [f"slot {self.slot}"]
        lines += [f"script {general}" for general in self.silent]
        return "".join(f"{line}\n" for line in [*lines, "end"]).encode()

    def header(self) -> vamuretu.Header:
        version = 1 if self.slot is None else 2
        roots = [vamuretu.root(seed_of(general), version) for general in range(4)]
        numbers = {"generals": 4, "traitors": 1, "diameter": self.diameter, "orders": self.orders}
        return vamuretu.header(version=version, slot=self.slot or 0, edges=self.edges, roots=roots, **numbers)

    def loyal(self) -> List[int]:
        return [general for general in range(4) if general not in self.silent]


ALL = Four(list(itertools.combinations(range(4), 2)), 1, 3, 2)
RING = Four([(1, 0), (1, 2), (3, 2), (0, 3)], 2, 2, 1, silent=(2,), slot=1)


def drive(four: Four) -> Tuple[vamuretu.Header, Dict[int, bytes], Dict[int, int], List[bytes]]:
    """The run by calls: its header, and the logs, the decisions and the receipts of those who took part."""
    header = four.header()
    nodes = {g: vamuretu.Node(header, g, seed_of(g), four.order if g == 0 else None) for g in four.loyal()}
    for _ in range(header.rounds):
        for node in nodes.values():
            node.begin_round()
        for sender, node in nodes.items():
            for receiver in header.neighbours(sender) & nodes.keys():
                nodes[receiver].hear(sender, node.send(receiver))
        for node in nodes.values():
            node.end_round()
    logs, orders, receipts = {}, {}, []
    for general, node in nodes.items():
        with node:
            node.finish()
            logs[general], orders[general] = node.log(), node.order()
            receipts.append(node.receipt())
    return header, logs, orders, receipts


def exhibits_of(data: bytes) -> Tuple[bytes, Dict[int, bytes]]:
    """What stands before the number of exhibits of a bundle of four nodes, and the exhibits, by docs/FORMATS.md."""
    fixed = 11 if data[4] == 1 else 12
    at = fixed + 2 * data[fixed - 1] + 4 * 32 + 3
    for _ in range(data[at - 1]):
        at += 1 + data[at]
    front, exhibits = data[:at], {}
    at += 1
    while at < len(data):
        end = at + 5 + int.from_bytes(data[at + 1 : at + 5], "big")
        exhibits[data[at]] = data[at + 5 : end]
        at = end
    return front, exhibits

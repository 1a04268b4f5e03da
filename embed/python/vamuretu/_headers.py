"""Headers: what a run is about. And the roots of keys that stand in them."""

from __future__ import annotations

import ctypes
import hashlib
from dataclasses import dataclass
from typing import FrozenSet, Iterable, Optional, Sequence, Tuple

from ._faults import EqualRoots, InputFault, Misuse, NodeFault, NoWalk
from ._libraries import NODES, Bytes, Call, Numbers, Pair, as_bytes, exactly, library, number, written

DONE, MISUSE, BAD, REFUSED = 0, 2, 3, 4
ROOT_BYTES = 32
# The bytes of a signer in a chain, by the version (docs/FORMATS.md).
_SIGNER = {1: 16_513, 2: 16_577}


@dataclass(frozen=True)
class Header:
    """A header in its parts, which the library has read. `slot` is None in version 1. `data` is its bytes, of which
    each header has one spelling: two headers are the same if and only if these are equal.
    """

    data: bytes
    version: int
    slot: Optional[int]
    generals: int
    traitors: int
    diameter: int
    orders: int
    choice: int
    edges: Tuple[Tuple[int, int], ...]
    roots: Tuple[bytes, ...]

    @property
    def run_id(self) -> str:
        """The run id of a verdict's text, 64 hexadecimal digits."""
        return hashlib.sha256(b"\x31" + self.data).hexdigest()

    @property
    def rounds(self) -> int:
        """How many rounds a run has."""
        return self.traitors + self.diameter

    @property
    def longest_frame(self) -> int:
        """The most bytes of a frame of a node that follows the algorithm. A transport should refuse a longer one."""
        return 41 + self.orders * (6 + _SIGNER[self.version] * self.rounds)

    def neighbours(self, general: int) -> FrozenSet[int]:
        """The nodes (generals) that an edge joins to one."""
        return frozenset(b if a == general else a for a, b in self.edges if general in (a, b))


def after_mark(data: bytes, at: int) -> Header:
    """The header at a place of bytes that the library has read."""
    version = data[at]
    fixed = at + (7 if version == 1 else 8)
    generals, traitors, diameter, orders, choice, edge_count = data[fixed - 6 : fixed]
    roots_at = fixed + 2 * edge_count
    ends = [(data[edge], data[edge + 1]) for edge in range(fixed, roots_at, 2)]
    end = roots_at + ROOT_BYTES * generals
    roots = [data[root : root + ROOT_BYTES] for root in range(roots_at, end, ROOT_BYTES)]
    slot = None if version == 1 else data[at + 1]
    numbers = (generals, traitors, diameter, orders, choice)
    return Header(data[at:end], version, slot, *numbers, tuple(ends), tuple(roots))


def fault_of(told: int) -> InputFault:
    """The fault of a number that a call told."""
    fault = NodeFault(told)
    return InputFault(f"fault {fault.name}", fault)


def must(status: int, call: str, told: Optional[ctypes.c_uint32] = None) -> None:
    """Raises what a call of the library of nodes ended with, unless it was done."""
    if status == BAD and told is not None:
        raise fault_of(told.value)
    if status == REFUSED:
        raise MemoryError(f"{call}: memory was refused")
    if status != DONE:
        raise Misuse(f"{call} is not allowed here")


def made(name: str, words: Sequence[object], room: int) -> bytes:
    """The bytes that a call makes which has no node, sm_node_header or sm_node_bundle. If the fault is of two nodes, they are
    told.
    """
    told, pair = ctypes.c_uint32(0), Pair()
    function = getattr(library(NODES), name)
    call: Call = lambda *ends: int(function(*words, *ends, ctypes.byref(told), ctypes.byref(pair)))
    status, data = written(call, room)
    if status == BAD and told.value == NodeFault.EQUAL_ROOTS:
        raise EqualRoots(pair.first, pair.second)
    if status == BAD and told.value in (NodeFault.U1, NodeFault.U2):
        raise NoWalk(NodeFault(told.value), pair.first, pair.second)
    must(status, name, told)
    return data


def header(
    *,
    version: int,
    generals: int,
    traitors: int,
    diameter: int,
    orders: int,
    edges: Iterable[Tuple[int, int]],
    roots: Iterable[Bytes],
    choice: int = 0,
    slot: int = 0,
) -> Header:
    """The header of these numbers, edges in any order and direction, and roots in the order of their nodes (generals).

    `traitors` is m, and `diameter` is d. The slot counts in version 2 alone. InputFault has H1 to H8, H10 or H11.
    It is EqualRoots, behind these, if two nodes have the same root.
    """
    told = [number(it, 256, "a number") for it in (version, slot, generals, traitors, diameter, orders, choice)]
    ends = [number(end, 256, "an end of an edge") for a, b in edges for end in (a, b)]
    keys = [exactly(ROOT_BYTES, it, "a root") for it in roots]
    words = [ctypes.byref(Numbers(*told)), bytes(ends), len(ends) // 2, b"".join(keys), len(keys)]
    return after_mark(made("sm_node_header", words, 8 + len(ends) + ROOT_BYTES * len(keys)), 0)


def read_header(data: Bytes) -> Header:
    """The header that bytes spell. InputFault has H1 to H7, H9 to H11, or LEFT_OVER."""
    given, told, numbers = as_bytes(data), ctypes.c_uint32(0), Numbers()
    status = library(NODES).sm_node_header_numbers(given, len(given), ctypes.byref(numbers), ctypes.byref(told))
    must(status, "sm_node_header_numbers", told)
    return after_mark(given, 0)

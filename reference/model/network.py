"""Networks, headers, and the texts that are signed."""

from __future__ import annotations

from dataclasses import dataclass
from functools import cached_property
from itertools import combinations
from typing import List, Optional, Sequence, Tuple

from . import keys
from .faults import Cursor, Fault

Edge = Tuple[int, int]
Path = Tuple[int, ...]
HEAD_LEAF = 15


@dataclass(frozen=True)
class Network:
    """Who can send to whom, and what a run is planned for (PROTOCOL.md#terms)."""

    generals: int
    edges: Tuple[Edge, ...]
    traitors: int
    diameter: int
    orders: int
    choice: int

    @property
    def rounds(self) -> int:
        """R = m + d (PROTOCOL.md#terms)."""
        return self.traitors + self.diameter

    @cached_property
    def _edge_set(self) -> frozenset:
        """The edges as a set."""
        return frozenset(self.edges)

    def joined(self, a: int, b: int) -> bool:
        """Whether an edge joins two generals."""
        return (min(a, b), max(a, b)) in self._edge_set

    def neighbours(self, general: int) -> Tuple[int, ...]:
        """The neighbours of a general, ascending."""
        return tuple(other for other in range(self.generals) if self.joined(general, other))

    def decided(self, orders: Sequence[int]) -> int:
        """What a set of orders is mapped to (PROTOCOL.md#choices)."""
        members = sorted(orders)
        if self.choice == 0:
            return members[0] if len(members) == 1 else 0
        return members[(len(members) - 1) // 2] if members else 0


def _edges_fault(generals: int, edges: Sequence[Edge], ascending: bool) -> bool:
    """Whether edges break H2; those of bytes must stand in their place (FORMATS.md#header)."""
    seen = set()
    for a, b in edges:
        if a >= generals or b >= generals or a == b or (min(a, b), max(a, b)) in seen:
            return True
        seen.add((min(a, b), max(a, b)))
    if ascending:
        return any(a > b for a, b in edges) or list(edges) != sorted(edges)
    return False


def make_network(numbers: Sequence[int], edges: Sequence[Edge], ascending: bool) -> Network:
    """The network of n, m, d, q and a choice, or the least of H1 to H7 (FORMATS.md#scenario-text)."""
    generals, traitors, diameter, orders, choice = numbers
    if not 2 <= generals <= 16:
        raise Fault("H1")
    if _edges_fault(generals, edges, ascending):
        raise Fault("H2")
    if traitors > 8:
        raise Fault("H3")
    if not 1 <= diameter <= 15:
        raise Fault("H4")
    if traitors + diameter > 16:
        raise Fault("H5")
    if not 2 <= orders <= 15:
        raise Fault("H6")
    if choice > 1:
        raise Fault("H7")
    placed = tuple(sorted((min(a, b), max(a, b)) for a, b in edges))
    return Network(generals, placed, traitors, diameter, orders, choice)


@dataclass(frozen=True)
class Header:
    """What a run is about: a network and the roots of its generals (FORMATS.md#header)."""

    version: int
    slot: int
    network: Network
    roots: Tuple[bytes, ...]

    @property
    def height(self) -> int:
        """The height of the trees of this version."""
        return keys.height_of(self.version)

    @property
    def signature_length(self) -> int:
        """The bytes of a signature of this version."""
        return keys.signature_length(self.height)

    def spell(self) -> bytes:
        """The bytes of the header (FORMATS.md#header)."""
        net = self.network
        front = [1] if self.version == 1 else [2, self.slot]
        numbers = [net.generals, net.traitors, net.diameter, net.orders, net.choice, len(net.edges)]
        ends = [end for edge in net.edges for end in edge]
        return bytes(front + numbers + ends) + b"".join(self.roots)

    @cached_property
    def run_id(self) -> bytes:
        """The hash of a header (FORMATS.md#what-is-hashed)."""
        return keys.digest(b"\x31" + self.spell())

    def equal_roots(self) -> List[Tuple[int, int]]:
        """The pairs of generals that have the same root, ascending (FORMATS.md#equal-roots)."""
        return [pair for pair in combinations(range(self.network.generals), 2)
                if self.roots[pair[0]] == self.roots[pair[1]]]

    def statement(self, order: int, path: Path) -> bytes:
        """The text of a statement (FORMATS.md#what-is-hashed)."""
        front = b"\x10" + self.run_id if self.version == 1 else b"\x12" + self.run_id + bytes([self.slot])
        return front + bytes([order, len(path)]) + bytes(path)

    def head(self, general: int, count: int, link: bytes) -> bytes:
        """The text of the head of a log (FORMATS.md#what-is-hashed)."""
        front = b"\x11" + self.run_id if self.version == 1 else b"\x13" + self.run_id + bytes([self.slot])
        return front + bytes([general]) + count.to_bytes(8, "big") + link

    def leaf(self, order: Optional[int]) -> int:
        """The leaf of a statement of an order, or of a head for none (FORMATS.md#what-is-hashed)."""
        return 16 * self.slot + (HEAD_LEAF if order is None else order)

    def signed_statement(self, general: int, order: int, path: Path, signature: bytes) -> bool:
        """Whether a signature of a general under a statement verifies."""
        text = keys.digest(self.statement(order, path))
        return keys.VERIFIER.verify(self.roots[general], self.height, self.leaf(order), text, signature)

    def signed_head(self, general: int, count: int, link: bytes, signature: bytes) -> bool:
        """Whether a signature of a general under the head of a log verifies."""
        text = keys.digest(self.head(general, count, link))
        return keys.VERIFIER.verify(self.roots[general], self.height, self.leaf(None), text, signature)


def read_header(cursor: Cursor, version: Optional[int]) -> Header:
    """The header in front of bytes; an early end is the cursor's fault (FORMATS.md#header).

    Where a version is given, the first byte has to be its number.
    """
    first = cursor.number(1)
    if first not in (1, 2) or version not in (None, first):
        raise Fault("H10")
    slot = cursor.number(1) if first == 2 else 0
    generals, traitors, diameter, orders, choice, count = cursor.take(6)
    ends = cursor.take(2 * count)
    roots = tuple(cursor.take(32) for _ in range(generals))
    edges = [(ends[at], ends[at + 1]) for at in range(0, len(ends), 2)]
    network = make_network((generals, traitors, diameter, orders, choice), edges, True)
    if slot > 3:
        raise Fault("H11")
    return Header(first, slot, network, roots)

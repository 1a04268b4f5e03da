"""Systems and headers of version 3, and the texts that are signed (VERSION-3.md#system-and-header)."""

from __future__ import annotations

from dataclasses import dataclass
from functools import cached_property
from typing import Dict, Optional, Tuple

from .. import keys, lms
from ..faults import Cursor, Fault
from ..network import Network, Path, make_network

MARK = b"SMS3"
MOST, VALUE_BYTES, RUN_LEAVES = 1 << 20, 32, 3
ORDERS, CHOICE = 3, 0
NO_VALUE = bytes(VALUE_BYTES)


def value_of(payload: bytes) -> bytes:
    """The value of a payload (VERSION-3.md#values-and-names)."""
    return keys.digest(payload)


@dataclass(frozen=True)
class System:
    """What all runs of some nodes have in common (VERSION-3.md#system-and-header)."""

    network: Network
    most: int
    proposer: int
    context: bytes
    keys: Tuple[lms.PublicKey, ...]

    @property
    def height(self) -> int:
        """The height of all trees of keys."""
        return self.keys[0].height

    @property
    def signature_length(self) -> int:
        """The bytes of a signature, s."""
        return 2188 + 32 * self.height

    @property
    def runs(self) -> int:
        """How many runs have leaves."""
        return 2 ** self.height // RUN_LEAVES

    def spell(self) -> bytes:
        """The bytes of the system, without a mark."""
        net = self.network
        numbers = [net.generals, net.traitors, net.diameter, net.orders, net.choice, len(net.edges)]
        ends = [end for edge in net.edges for end in edge]
        front = bytes(numbers + ends) + self.most.to_bytes(4, "big") + bytes([self.proposer]) + self.context
        return front + b"".join(key.spell() for key in self.keys)

    @cached_property
    def system_id(self) -> bytes:
        """The hash of the system (VERSION-3.md#what-is-signed-and-hashed)."""
        return keys.digest(b"\x45" + self.spell())

    def node_of(self, run: int, general: int) -> int:
        """The node that a general of a run is."""
        return general if self.proposer == 0 else (run + general) % self.network.generals

    def network_of(self, run: int) -> Network:
        """The network of the generals of a run."""
        net = self.network
        generals = {self.node_of(run, general): general for general in range(net.generals)}
        edges = [(generals[a], generals[b]) for a, b in net.edges]
        return make_network((net.generals, net.traitors, net.diameter, net.orders, net.choice), edges, False)


@dataclass(frozen=True)
class Header:
    """A run of a system, by its number (VERSION-3.md#system-and-header)."""

    system: System
    run: int
    version = 3

    def spell(self) -> bytes:
        """The bytes of the header."""
        return b"\x03" + self.run.to_bytes(4, "big") + self.system.spell()

    @cached_property
    def network(self) -> Network:
        """The network of the run."""
        return self.system.network_of(self.run)

    @property
    def signature_length(self) -> int:
        """The bytes of a signature, s."""
        return self.system.signature_length

    @cached_property
    def run_id(self) -> bytes:
        """The hash of the system id and the number (VERSION-3.md#what-is-signed-and-hashed)."""
        return keys.digest(b"\x46" + self.system.system_id + self.run.to_bytes(4, "big"))

    def key(self, general: int) -> lms.PublicKey:
        """The public key of a general."""
        return self.system.keys[self.system.node_of(self.run, general)]

    def statement(self, order: int, value: bytes, path: Path) -> bytes:
        """The text of a statement (VERSION-3.md#what-is-signed-and-hashed)."""
        return b"\x14" + self.run_id + bytes([order]) + value + bytes([len(path)]) + bytes(path)

    def head(self, general: int, count: int, link: bytes) -> bytes:
        """The text of the head of a log (VERSION-3.md#what-is-signed-and-hashed)."""
        return b"\x15" + self.run_id + bytes([general]) + count.to_bytes(8, "big") + link

    def leaf(self, order: Optional[int]) -> int:
        """The leaf of a statement of an order, or of a head for none."""
        return RUN_LEAVES * self.run + (order or 0)

    def signed_statement(self, general: int, order: int, value: bytes, path: Path, signature: bytes) -> bool:
        """Whether a general's signature of a statement verifies."""
        return self.signed(general, self.statement(order, value, path), signature, self.leaf(order))

    def signed_head(self, general: int, count: int, link: bytes, signature: bytes) -> bool:
        """Whether a general's signature of the head of a log verifies."""
        return self.signed(general, self.head(general, count, link), signature, self.leaf(None))

    def signed(self, general: int, text: bytes, signature: bytes, leaf: int) -> bool:
        """Whether a signature of a text verifies as a general's under a leaf (VERSION-3.md#what-is-signed-and-hashed)."""
        return signature[:4] == leaf.to_bytes(4, "big") and _verifies(self.key(general).spell(), text, signature)


_ANSWERS: Dict[bytes, bool] = {}
_LIMIT = 200_000


def _verifies(key: bytes, text: bytes, signature: bytes) -> bool:
    """Whether a signature is valid by the RFC; answers are kept."""
    asked = keys.digest(key + keys.digest(text) + signature)
    if asked not in _ANSWERS:
        if len(_ANSWERS) >= _LIMIT:
            _ANSWERS.clear()
        try:
            _ANSWERS[asked] = lms.verifies(key, text, signature)
        except lms.Refused:
            _ANSWERS[asked] = False
    return _ANSWERS[asked]


def _read_keys(texts: Tuple[bytes, ...]) -> Tuple[lms.PublicKey, ...]:
    """The public keys of a system, or H14 (VERSION-3.md#system-and-header)."""
    try:
        read = tuple(lms.read_public_key(text) for text in texts)
    except lms.Refused:
        raise Fault("H14") from None
    if any(key.height != read[0].height for key in read):
        raise Fault("H14")
    return read


def _take_system(cursor: Cursor) -> Tuple[Tuple[int, ...], Tuple[Tuple[int, int], ...], int, int, bytes, Tuple[bytes, ...]]:
    """The fields of a system in front of bytes, before any is looked at."""
    generals, traitors, diameter, orders, choice, count = cursor.take(6)
    ends = cursor.take(2 * count)
    edges = tuple((ends[at], ends[at + 1]) for at in range(0, len(ends), 2))
    most, proposer, context = cursor.number(4), cursor.number(1), cursor.take(32)
    texts = tuple(cursor.take(56) for _ in range(generals))
    return (generals, traitors, diameter, orders, choice), edges, most, proposer, context, texts


def read_system(cursor: Cursor) -> System:
    """The system in front of bytes, or the first of its faults (VERSION-3.md#system-and-header)."""
    numbers, edges, most, proposer, context, texts = _take_system(cursor)
    generals, traitors, diameter, orders, choice = numbers
    network = make_network((generals, traitors, diameter, ORDERS, CHOICE), edges, True)
    if orders != ORDERS:
        raise Fault("H6")
    if choice != CHOICE:
        raise Fault("H7")
    if most > MOST:
        raise Fault("H12")
    if proposer > 1:
        raise Fault("H13")
    public = _read_keys(texts)
    if len(set(public)) != len(public):
        raise Fault("H15")
    return System(network, most, proposer, context, public)


def read_header(cursor: Cursor) -> Header:
    """The header in front of bytes; an early end is the cursor's fault (VERSION-3.md#system-and-header)."""
    if cursor.number(1) != 3:
        raise Fault("H10")
    run = cursor.number(4)
    system = read_system(cursor)
    if run >= system.runs:
        raise Fault("H16")
    return Header(system, run)


def read_system_file(data: bytes) -> System:
    """The system that a file is, or the first of U1, U2, U3 and U8 (VERSION-3.md#system-and-header)."""
    cursor = Cursor(data, "U1")
    if cursor.take(4) != MARK:
        raise Fault("U2")
    try:
        system = read_system(cursor)
    except Fault as inner:
        raise (Fault("U3 " + inner.words) if inner.words[0] == "H" else inner) from None
    if not cursor.at_end():
        raise Fault("U8")
    return system

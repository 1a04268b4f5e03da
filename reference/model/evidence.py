"""Evidence: what is held against one general of a run, in bytes, and whether it holds."""

from __future__ import annotations

from dataclasses import dataclass
from typing import Optional, Tuple, Union

from .faults import Cursor, Fault
from .follow import COMMANDER, departs
from .log import Log, Sign, read_log, read_statement, spell_path
from .network import Header, Network, Path, read_header

MARKS = {1: b"SME1", 2: b"SME2"}


@dataclass(frozen=True)
class Statement:
    """The text of an order and a path (FORMATS.md#evidence)."""

    order: int
    path: Path

    def spell(self) -> bytes:
        """The bytes of the text."""
        return b"\x01" + spell_path(self.order, self.path)


@dataclass(frozen=True)
class Head:
    """The text of the head of a log of the accused (FORMATS.md#evidence)."""

    count: int
    link: bytes

    def spell(self) -> bytes:
        """The bytes of the text."""
        return b"\x02" + self.count.to_bytes(8, "big") + self.link


Text = Union[Statement, Head]


def leaf_of(header: Header, text: Text) -> int:
    """The leaf under which a text is signed (FORMATS.md#what-is-hashed)."""
    return header.leaf(text.order if isinstance(text, Statement) else None)


@dataclass(frozen=True)
class Signed:
    """A text with a signature."""

    text: Text
    signature: bytes

    def spell(self) -> bytes:
        """The text and the signature (FORMATS.md#evidence)."""
        return self.text.spell() + self.signature

    def verifies(self, header: Header, general: int) -> bool:
        """Whether the text is a general's and the signature verifies (FORMATS.md#evidence).

        The statement of a path is that of its last general.
        """
        text = self.text
        if isinstance(text, Statement):
            if text.path[-1] != general:
                return False
            return header.signed_statement(general, text.order, text.path, self.signature)
        return header.signed_head(general, text.count, text.link, self.signature)


@dataclass(frozen=True)
class TwoTexts:
    """Kind 01: two different texts under one leaf (FORMATS.md#evidence)."""

    first: Signed
    second: Signed
    kind = 1

    def spell(self) -> bytes:
        """The bytes of the claim."""
        return self.first.spell() + self.second.spell()

    def holds(self, header: Header, accused: int) -> bool:
        """Whether the texts are different, under one leaf, and signed by the accused."""
        one_leaf = leaf_of(header, self.first.text) == leaf_of(header, self.second.text)
        both = self.first.verifies(header, accused) and self.second.verifies(header, accused)
        return one_leaf and self.first.text != self.second.text and both


@dataclass(frozen=True)
class TwoOrders:
    """Kind 02: two orders of the commander (FORMATS.md#evidence)."""

    first: Signed
    second: Signed
    kind = 2

    def spell(self) -> bytes:
        """The bytes of the claim."""
        parts = []
        for signed in (self.first, self.second):
            assert isinstance(signed.text, Statement)
            parts += [bytes([signed.text.order]), signed.signature]
        return b"".join(parts)

    def holds(self, header: Header, accused: int) -> bool:
        """Whether the accused is the commander and signed two different orders."""
        both = self.first.verifies(header, accused) and self.second.verifies(header, accused)
        return accused == COMMANDER and self.first.text != self.second.text and both


def sealed_log(data: bytes, header: Header, general: int) -> Optional[Log]:
    """The log that bytes are, where it says it is of this run and a general's, and he sealed it.

    FORMATS.md#evidence.
    """
    try:
        log = read_log(data, header)
    except Fault:
        return None
    if log.run_id != header.run_id or log.general != general or not log.sealed(header, general):
        return None
    return log


def misses(log: Log, text: Statement) -> bool:
    """Whether a log has no SIGN of a statement (FORMATS.md#evidence)."""
    return not any(isinstance(entry, Sign) and (entry.order, entry.path) == (text.order, text.path)
                   for entry in log.entries)


@dataclass(frozen=True)
class Missing:
    """Kind 03: a sealed log without a SIGN of a statement that its general signed (FORMATS.md#evidence)."""

    log: bytes
    signed: Signed
    kind = 3

    def spell(self) -> bytes:
        """The bytes of the claim."""
        return len(self.log).to_bytes(4, "big") + self.log + self.signed.spell()

    def holds(self, header: Header, accused: int) -> bool:
        """Whether the accused sealed the log and signed the statement, and the log misses it."""
        log = sealed_log(self.log, header, accused)
        text = self.signed.text
        assert isinstance(text, Statement)
        return log is not None and misses(log, text) and self.signed.verifies(header, accused)


@dataclass(frozen=True)
class Departing:
    """Kind 04: a sealed log that departs at an entry (FORMATS.md#evidence)."""

    log: bytes
    entry: int
    kind = 4

    def spell(self) -> bytes:
        """The bytes of the claim."""
        return len(self.log).to_bytes(4, "big") + self.log + self.entry.to_bytes(4, "big")

    def holds(self, header: Header, accused: int) -> bool:
        """Whether the accused sealed the log, and it departs at the entry."""
        log = sealed_log(self.log, header, accused)
        return log is not None and departs(header.network, accused, log.entries) == self.entry


@dataclass(frozen=True)
class Across:
    """Kind 05: two texts under one leaf, in two runs that use the same leaves (FORMATS.md#evidence)."""

    other: Header
    first: Signed
    second: Signed
    kind = 5

    def spell(self) -> bytes:
        """The bytes of the claim."""
        return self.other.spell() + self.first.spell() + self.second.spell()

    def holds(self, header: Header, accused: int) -> bool:
        """Whether the texts stand under one leaf, each signed by the accused in its run."""
        if leaf_of(header, self.first.text) != leaf_of(self.other, self.second.text):
            return False
        return self.first.verifies(header, accused) and self.second.verifies(self.other, accused)


Claim = Union[TwoTexts, TwoOrders, Missing, Departing, Across]


@dataclass(frozen=True)
class Evidence:
    """A general who is accused in a run, and a claim (FORMATS.md#evidence)."""

    header: Header
    accused: int
    claim: Claim

    def spell(self) -> bytes:
        """The bytes of the evidence (FORMATS.md#evidence)."""
        front = MARKS[self.header.version] + self.header.spell() + bytes([self.accused, self.claim.kind])
        return front + self.claim.spell()

    def holds(self) -> bool:
        """Whether the claim holds (FORMATS.md#evidence)."""
        return self.claim.holds(self.header, self.accused)


def _evidence_header(cursor: Cursor, version: int) -> Header:
    """A header of this version, or V3."""
    try:
        return read_header(cursor, version)
    except Fault as inner:
        raise (Fault("V3 " + inner.words) if inner.words[0] == "H" else inner) from None


def _log_rule(fault: Fault) -> Fault:
    """V4 for L3."""
    return Fault("V4") if fault.words == "L3" else fault


def _read_text(cursor: Cursor, network: Network, kinds: Tuple[int, ...]) -> Text:
    """A text whose first byte is one of these, or V4 (FORMATS.md#evidence)."""
    kind = cursor.number(1)
    if kind not in kinds:
        raise Fault("V4")
    if kind == 2:
        count = cursor.number(8)
        return Head(count, cursor.take(32))
    try:
        return Statement(*read_statement(cursor, network))
    except Fault as inner:
        raise _log_rule(inner) from None


def _read_signed(cursor: Cursor, header: Header, kinds: Tuple[int, ...] = (1, 2)) -> Signed:
    """A text and a signature."""
    text = _read_text(cursor, header.network, kinds)
    return Signed(text, cursor.take(header.signature_length))


def _read_order(cursor: Cursor, header: Header) -> Signed:
    """An order of the commander and a signature."""
    order = cursor.number(1)
    if order >= header.network.orders:
        raise Fault("V4")
    return Signed(Statement(order, (COMMANDER,)), cursor.take(header.signature_length))


def _same_leaves(header: Header, other: Header) -> bool:
    """Whether two runs use the same leaves and are not one (FORMATS.md#evidence)."""
    same = header.slot == other.slot and header.network.generals == other.network.generals
    return same and header.roots == other.roots and header != other


def _read_claim(cursor: Cursor, header: Header, kind: int) -> Claim:
    """The claim in front of bytes (FORMATS.md#evidence)."""
    if kind == 1:
        first = _read_signed(cursor, header)
        return TwoTexts(first, _read_signed(cursor, header))
    if kind == 2:
        first = _read_order(cursor, header)
        return TwoOrders(first, _read_order(cursor, header))
    if kind == 3:
        log = cursor.take(cursor.number(4))
        return Missing(log, _read_signed(cursor, header, (1,)))
    if kind == 4:
        log = cursor.take(cursor.number(4))
        return Departing(log, cursor.number(4))
    other = _evidence_header(cursor, 2)
    if not _same_leaves(header, other):
        raise Fault("V6")
    first = _read_signed(cursor, header)
    return Across(other, first, _read_signed(cursor, other))


def read_evidence(data: bytes) -> Evidence:
    """The evidence that bytes are, or the first of V1 to V6 (FORMATS.md#evidence)."""
    cursor = Cursor(data, "V1")
    mark = cursor.take(4)
    version = next((number for number in MARKS if MARKS[number] == mark), None)
    if version is None:
        raise Fault("V2")
    header = _evidence_header(cursor, version)
    accused = cursor.number(1)
    if accused >= header.network.generals:
        raise Fault("V4")
    kind = cursor.number(1)
    if not 1 <= kind <= (5 if version == 2 else 4):
        raise Fault("V4")
    claim = _read_claim(cursor, header, kind)
    if not cursor.at_end():
        raise Fault("V5")
    return Evidence(header, accused, claim)

"""Receipts of version 3 (VERSION-3.md#receipts)."""

from __future__ import annotations

from dataclasses import dataclass
from typing import List, Optional, Tuple

from .. import keys
from ..faults import Cursor, Fault
from ..log import last_link, link_text, read_set
from .header import NO_VALUE, VALUE_BYTES, Header, read_header
from .log import NAMES, DecideValues, ValueLog

MARK = b"SMR3"


@dataclass(frozen=True)
class Receipt:
    """What a general shows of its log."""

    general: int
    entries: int
    link: bytes
    decide: DecideValues
    signature: bytes

    def spell(self, header: Header) -> bytes:
        """The bytes of the receipt in a run."""
        front = MARK + header.spell() + bytes([self.general]) + self.entries.to_bytes(8, "big") + self.link
        return front + self.decide.spell()[1:] + self.signature

    def holds(self, header: Header) -> bool:
        """Whether the receipt holds in a run."""
        link = keys.digest(link_text(self.link, self.decide))
        return header.signed_head(self.general, self.entries, link, self.signature)

    def outcome(self) -> Optional[bytes]:
        """The value that is decided; nothing is RETREAT."""
        values = dict(zip(self.decide.orders, self.decide.values))
        return None if self.decide.order == 0 else values.get(self.decide.order, NO_VALUE)


def receipt_of_log(header: Header, general: int, log: ValueLog) -> Receipt:
    """The receipt of a log as that of a general in a run."""
    return Receipt(general, len(log.entries), last_link(header.run_id, general, log.entries[:-1]), log.decided, log.signature)


@dataclass(frozen=True)
class RunReceipts:
    """A header, and receipts of its run."""

    header: Header
    receipts: Tuple[Receipt, ...]

    def shown(self) -> List[Optional[bytes]]:
        """The outcomes that are shown: RETREAT first, then values ascending."""
        held = [receipt for receipt in self.receipts if receipt.holds(self.header)]
        generals = {outcome: {it.general for it in held if it.outcome() == outcome} for outcome in {it.outcome() for it in held}}
        shown = [outcome for outcome, some in generals.items() if len(some) > self.header.network.traitors]
        return sorted(shown, key=lambda outcome: (outcome is not None, outcome or b""))


def _read_fields(cursor: Cursor, header: Header) -> Receipt:
    """The fields behind the header of a receipt."""
    general = cursor.number(1)
    if general >= header.network.generals:
        raise Fault("Q4")
    entries, link, orders = cursor.number(8), cursor.take(32), read_set(cursor.number(2))
    if any(order not in NAMES for order in orders):
        raise Fault("Q4")
    order = cursor.number(1)
    if order > 2:
        raise Fault("Q4")
    values = tuple(cursor.take(VALUE_BYTES) for _ in orders)
    if len(set(values)) != len(values):
        raise Fault("Q4")
    return Receipt(general, entries, link, DecideValues(orders, order, values), cursor.take(header.signature_length))


def _read_mark(cursor: Cursor) -> Header:
    """A mark and the header behind it, or Q1 to Q3."""
    if cursor.take(4) != MARK:
        raise Fault("Q2")
    try:
        return read_header(cursor)
    except Fault as inner:
        raise (Fault("Q3 " + inner.words) if inner.words[0] == "H" else inner) from None


def read_receipts(data: bytes) -> RunReceipts:
    """The receipts that bytes are, or the first of Q1 to Q5."""
    cursor = Cursor(data, "Q1")
    header = _read_mark(cursor)
    receipts = [_read_fields(cursor, header)]
    while not cursor.at_end():
        if _read_mark(cursor) != header:
            raise Fault("Q5")
        receipts.append(_read_fields(cursor, header))
    return RunReceipts(header, tuple(receipts))

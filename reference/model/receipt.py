"""Receipts: the end of a general's log, which shows the general's decision without the log."""

from __future__ import annotations

from dataclasses import dataclass
from itertools import combinations
from typing import List, Optional, Tuple

from . import keys
from .bundle import Bundle
from .evidence import Evidence, Head, Signed, TwoTexts
from .faults import Cursor, Fault
from .log import Decide, Log, last_link, link_text, read_log, read_set, spell_set
from .network import Header, Network, read_header
from .show import decision_line, listed

MARKS = {1: b"SMR1", 2: b"SMR2"}


@dataclass(frozen=True)
class Receipt:
    """What a general shows of its log (FORMATS.md#receipts)."""

    general: int
    entries: int
    link: bytes
    orders: Tuple[int, ...]
    order: int
    signature: bytes

    def spell(self, header: Header) -> bytes:
        """The bytes of the receipt in a run (FORMATS.md#receipts)."""
        parts = [MARKS[header.version], header.spell(), bytes([self.general]), self.entries.to_bytes(8, "big"), self.link]
        return b"".join(parts + [spell_set(self.orders), bytes([self.order]), self.signature])

    def head(self) -> Head:
        """The head of the receipt (FORMATS.md#receipts)."""
        return Head(self.entries, keys.digest(link_text(self.link, Decide(self.orders, self.order))))

    def signed(self) -> Signed:
        """The head with its signature."""
        return Signed(self.head(), self.signature)

    def holds(self, header: Header) -> bool:
        """Whether the receipt holds in a run (FORMATS.md#receipts)."""
        return self.signed().verifies(header, self.general)


def receipt_of_log(header: Header, general: int, log: Log) -> Receipt:
    """The receipt of a log as that of a general in a run (FORMATS.md#receipts)."""
    link = last_link(header.run_id, general, log.entries[:-1])
    return Receipt(general, len(log.entries), link, log.end.orders, log.end.order, log.signature)


def receipt_in(bundle: Bundle, general: int) -> Optional[Receipt]:
    """The receipt of the first exhibit of a general that reads and whose receipt holds (FORMATS.md#receipts)."""
    for exhibit in bundle.exhibits:
        if exhibit.general != general:
            continue
        try:
            receipt = receipt_of_log(bundle.header, general, read_log(exhibit.data, bundle.header))
        except Fault:
            continue
        if receipt.holds(bundle.header):
            return receipt
    return None


@dataclass(frozen=True)
class RunReceipts:
    """A header, and receipts of its run (FORMATS.md#receipts)."""

    header: Header
    receipts: Tuple[Receipt, ...]

    def shows(self, order: int) -> bool:
        """Whether more than m different generals show an order (FORMATS.md#receipts)."""
        generals = {receipt.general for receipt in self.receipts if receipt.order == order and receipt.holds(self.header)}
        return len(generals) > self.header.network.traitors

    def shown(self) -> List[int]:
        """The orders that are shown, ascending (FORMATS.md#receipts)."""
        return [order for order in range(self.header.network.orders) if self.shows(order)]

    def evidence(self, general: int) -> Optional[Evidence]:
        """The evidence of the first pair of receipts that convicts a general, if there is one (FORMATS.md#receipts)."""
        held = [receipt for receipt in self.receipts if receipt.general == general and receipt.holds(self.header)]
        pair = next(((one, two) for one, two in combinations(held, 2) if one.head() != two.head()), None)
        return None if pair is None else Evidence(self.header, general, TwoTexts(pair[0].signed(), pair[1].signed()))

    def convicted(self) -> List[int]:
        """The generals that two of the receipts convict, ascending (FORMATS.md#receipts)."""
        return [general for general in range(self.header.network.generals) if self.evidence(general) is not None]


def _read_mark(cursor: Cursor) -> Header:
    """A mark and the header behind it, or Q1 to Q3 (FORMATS.md#receipts)."""
    mark = cursor.take(4)
    version = next((number for number in MARKS if MARKS[number] == mark), None)
    if version is None:
        raise Fault("Q2")
    try:
        return read_header(cursor, version)
    except Fault as inner:
        raise (Fault("Q3 " + inner.words) if inner.words[0] == "H" else inner) from None


def _read_below(cursor: Cursor, limit: int) -> int:
    """A byte that is a number below a limit, or Q4."""
    number = cursor.number(1)
    if number >= limit:
        raise Fault("Q4")
    return number


def _read_orders(cursor: Cursor, network: Network) -> Tuple[int, ...]:
    """A set of orders of the network, or Q4."""
    orders = read_set(cursor.number(2))
    if orders and orders[-1] >= network.orders:
        raise Fault("Q4")
    return orders


def _read_fields(cursor: Cursor, header: Header) -> Receipt:
    """The fields behind the header of a receipt (FORMATS.md#receipts)."""
    network = header.network
    general = _read_below(cursor, network.generals)
    entries, link = cursor.number(8), cursor.take(32)
    orders = _read_orders(cursor, network)
    order = _read_below(cursor, network.orders)
    return Receipt(general, entries, link, orders, order, cursor.take(header.signature_length))


def read_receipts(data: bytes) -> RunReceipts:
    """The receipts that bytes are, or the first of Q1 to Q5 (FORMATS.md#receipts)."""
    cursor = Cursor(data, "Q1")
    first = _read_mark(cursor)
    receipts = [_read_fields(cursor, first)]
    while not cursor.at_end():
        if _read_mark(cursor) != first:
            raise Fault("Q5")
        receipts.append(_read_fields(cursor, first))
    return RunReceipts(first, tuple(receipts))


def _receipt_line(header: Header, receipt: Receipt) -> str:
    """The line of a receipt (FORMATS.md#receipts-text)."""
    if not receipt.holds(header):
        return f"general {receipt.general} fails"
    return decision_line(receipt.general, receipt.orders, receipt.order)


def receipts_text(told: RunReceipts) -> str:
    """What receipts show, line by line (FORMATS.md#receipts-text)."""
    lines = [f"run {told.header.run_id.hex()}", f"shown {listed(told.shown())}"]
    lines += [_receipt_line(told.header, receipt) for receipt in told.receipts]
    lines += [f"general {general} convicted" for general in told.convicted()]
    return "".join(f"{line}\n" for line in lines + ["end"])

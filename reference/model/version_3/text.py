"""The text of a system of version 3 (VERSION-3.md#text-of-a-system)."""

from __future__ import annotations

from itertools import combinations
from typing import List

from .. import lms
from ..faults import Fault
from ..scenario import HEX_DIGITS, Lines, read_network
from .header import CHOICE, MOST, ORDERS, System

KEY_DIGITS, MOST_NUMBER = 112, 2 ** 32 - 1


def _read_most(lines: Lines, field: bytes) -> int:
    """The most bytes of a payload, or P3."""
    most = int(field) if field.isdigit() and (field == b"0" or field[:1] != b"0") else MOST_NUMBER + 1
    if most > MOST_NUMBER:
        raise lines.fault("P3")
    return most


def _read_key(lines: Lines, field: bytes, before: List[lms.PublicKey]) -> lms.PublicKey:
    """A public key, or P6 or H14."""
    if len(field) != KEY_DIGITS or any(byte not in HEX_DIGITS for byte in field):
        raise lines.fault("P6")
    try:
        key = lms.read_public_key(bytes.fromhex(field.decode("ascii")))
    except lms.Refused:
        raise lines.fault("P4 H14") from None
    if before and key.height != before[0].height:
        raise lines.fault("P4 H14")
    return key


def system_of_text(text: bytes, proposer: int, context: bytes) -> System:
    """The system of a text, or the text's first fault."""
    lines = Lines(text)
    network = read_network(lines, None)
    most = _read_most(lines, lines.word(b"payload", 2)[1])
    for is_wrong, fault in ((network.orders != ORDERS, "H6"), (network.choice != CHOICE, "H7"), (most > MOST, "H12")):
        if is_wrong:
            raise lines.fault(f"P4 {fault}")
    public: List[lms.PublicKey] = []
    for _ in range(network.generals):
        public.append(_read_key(lines, lines.word(b"key", 2)[1], public))
    lines.word(b"end", 1)
    lines.ended()
    for first, second in combinations(range(network.generals), 2):
        if public[first] == public[second]:
            raise Fault(f"G2 generals {first} {second}")
    return System(network, most, proposer, context, tuple(public))

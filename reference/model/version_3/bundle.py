"""Bundles of version 3 (VERSION-3.md#judging)."""

from __future__ import annotations

from dataclasses import dataclass
from typing import Sequence, Tuple

from ..bundle import Exhibit, make_walks, read_exhibits, read_walks
from ..faults import Cursor, Fault
from ..log import read_set, spell_set
from ..network import Path
from .header import Header, read_header

MARK = b"SMB3"


@dataclass(frozen=True)
class Bundle:
    """A header, who is assumed faulty, walks and exhibits (FORMATS.md#bundle)."""

    header: Header
    faulty: Tuple[int, ...]
    walks: Tuple[Path, ...]
    exhibits: Tuple[Exhibit, ...]

    @property
    def rest(self) -> Tuple[int, ...]:
        """The rest, ascending."""
        return tuple(general for general in range(self.header.network.generals) if general not in self.faulty)

    def spell(self) -> bytes:
        """The bytes of the bundle."""
        parts = [MARK, self.header.spell(), spell_set(self.faulty), bytes([len(self.walks)])]
        parts += [bytes([len(walk)]) + bytes(walk) for walk in self.walks]
        parts.append(bytes([len(self.exhibits)]))
        for exhibit in self.exhibits:
            parts += [bytes([exhibit.general]), len(exhibit.data).to_bytes(4, "big"), exhibit.data]
        return b"".join(parts)


def make_bundle(header: Header, faulty: Sequence[int], exhibits: Sequence[Exhibit]) -> Bundle:
    """A bundle with the walks that can be made between the rest."""
    listed = tuple(sorted(faulty))
    rest = [general for general in range(header.network.generals) if general not in listed]
    return Bundle(header, listed, make_walks(header.network, rest), tuple(exhibits))


def read_bundle(data: bytes) -> Bundle:
    """The bundle that bytes are, or the first of B1 to B9 (FORMATS.md#bundle)."""
    cursor = Cursor(data, "B1")
    if cursor.take(4) != MARK:
        raise Fault("B2")
    try:
        header = read_header(cursor)
    except Fault as inner:
        raise (Fault("B3 " + inner.words) if inner.words[0] == "H" else inner) from None
    faulty = read_set(cursor.number(2))
    if faulty and faulty[-1] >= header.network.generals:
        raise Fault("B4")
    walks = read_walks(cursor, header.network)
    bundle = Bundle(header, faulty, walks, read_exhibits(cursor, header.network))
    if not cursor.at_end():
        raise Fault("B8")
    return bundle

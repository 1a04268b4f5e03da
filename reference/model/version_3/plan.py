"""How long frames and logs of version 3 can be (VERSION-3.md#plan)."""

from __future__ import annotations

from .header import Header
from .node import MOST_PARCELS


def longest_frame(header: Header) -> int:
    """The bytes of the longest frame of a follower."""
    signer = 1 + header.signature_length
    return 41 + MOST_PARCELS * (6 + signer * header.network.rounds + header.system.most)


def longest_log(header: Header) -> int:
    """The bytes of the longest log of a follower."""
    s, rounds = header.signature_length, header.network.rounds
    most = max(len(header.network.neighbours(general)) for general in range(header.network.generals))
    received = 4 + 5 * rounds + (1 + s) * rounds * (rounds + 1) // 2
    return 40 + s + 3 + 68 + 2 * (3 + rounds + s) + 2 * most * received

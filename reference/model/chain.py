"""Chains: an order, and those who signed it one after another."""

from __future__ import annotations

from dataclasses import dataclass
from typing import Tuple

from .faults import Cursor, Fault
from .network import Header, Path


@dataclass(frozen=True)
class Chain:
    """An order with its path and a signature for each general of the path (FORMATS.md#chain)."""

    order: int
    path: Path
    signatures: Tuple[bytes, ...]

    def spell(self) -> bytes:
        """The bytes of the chain (FORMATS.md#chain)."""
        parts = [bytes([self.order, len(self.path)])]
        for general, signature in zip(self.path, self.signatures):
            parts += [bytes([general]), signature]
        return b"".join(parts)

    def longer(self, general: int, signature: bytes) -> "Chain":
        """The chain, lengthened by one signer."""
        return Chain(self.order, self.path + (general,), self.signatures + (signature,))

    def verifies(self, header: Header) -> bool:
        """Whether the signature of each signer, who is the network's, verifies (FORMATS.md#chain)."""
        return all(header.signed_statement(general, self.order, self.path[:at + 1], self.signatures[at])
                   for at, general in enumerate(self.path))


def read_chain(cursor: Cursor, signature_length: int) -> Chain:
    """The chain in front of bytes, or the first of C1 to C5 (FORMATS.md#chain)."""
    if len(cursor.data) - cursor.place < 2:
        raise Fault("C1")
    order = cursor.number(1)
    length = cursor.number(1)
    if order > 14:
        raise Fault("C2")
    if not 1 <= length <= 16:
        raise Fault("C3")
    if len(cursor.data) - cursor.place < length * (1 + signature_length):
        raise Fault("C1")
    path: Path = ()
    signatures: Tuple[bytes, ...] = ()
    for _ in range(length):
        path += (cursor.number(1),)
        signatures += (cursor.take(signature_length),)
    if max(path) > 15 or len(set(path)) != length:
        raise Fault("C4")
    if path[0] != 0:
        raise Fault("C5")
    return Chain(order, path, signatures)

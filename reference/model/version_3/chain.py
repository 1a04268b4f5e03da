"""Chains and parcels of version 3 (VERSION-3.md#chain-and-parcel)."""

from __future__ import annotations

from dataclasses import dataclass
from typing import Tuple

from ..faults import Cursor, Fault
from ..network import Path
from .header import Header, value_of

SECOND = 16


@dataclass(frozen=True)
class Signer:
    """A general that signed, its own order of the value, and its signature."""

    general: int
    order: int
    signature: bytes

    def spell(self) -> bytes:
        """The bytes of the signer."""
        return bytes([self.general + (SECOND if self.order == 2 else 0)]) + self.signature


@dataclass(frozen=True)
class Chain:
    """A holder's order of a value, and those that signed the value, one after another."""

    order: int
    signers: Tuple[Signer, ...]

    @property
    def path(self) -> Path:
        """The generals that signed."""
        return tuple(signer.general for signer in self.signers)

    def spell(self) -> bytes:
        """The bytes of the chain."""
        return bytes([self.order, len(self.signers)]) + b"".join(signer.spell() for signer in self.signers)

    def held_as(self, order: int) -> "Chain":
        """The chain as another holder has it, by its own order."""
        return Chain(order, self.signers)

    def verifies(self, header: Header, value: bytes) -> bool:
        """Whether each signer, who is the network's, signed the value under its own order."""
        return all(header.signed_statement(signer.general, signer.order, value, self.path[:at + 1], signer.signature)
                   for at, signer in enumerate(self.signers))


def _read_signer(cursor: Cursor, signature_length: int) -> Tuple[int, bytes]:
    """The byte and the signature of a signer."""
    return cursor.number(1), cursor.take(signature_length)


def read_chain(cursor: Cursor, signature_length: int) -> Chain:
    """The chain in front of bytes, or the first of C1 to C5 (VERSION-3.md#chain-and-parcel)."""
    if len(cursor.rest()) < 2:
        raise Fault("C1")
    order, length = cursor.number(1), cursor.number(1)
    if order not in (1, 2):
        raise Fault("C2")
    if not 1 <= length <= 16:
        raise Fault("C3")
    if len(cursor.rest()) < length * (1 + signature_length):
        raise Fault("C1")
    read = [_read_signer(cursor, signature_length) for _ in range(length)]
    signers = tuple(Signer(byte % SECOND, byte // SECOND + 1, signature) for byte, signature in read)
    if max(byte for byte, _ in read) > 31 or len({signer.general for signer in signers}) != length:
        raise Fault("C4")
    if signers[0].general != 0:
        raise Fault("C5")
    return Chain(order, signers)


@dataclass(frozen=True)
class Parcel:
    """A chain with its payload behind it."""

    chain: Chain
    payload: bytes

    @property
    def value(self) -> bytes:
        """The value of the payload."""
        return value_of(self.payload)

    def spell(self) -> bytes:
        """The bytes of the parcel."""
        return self.chain.spell() + self.payload


def read_parcel(data: bytes, header: Header) -> Parcel:
    """The parcel that bytes are, or the fault of its chain."""
    cursor = Cursor(data, "C1")
    chain = read_chain(cursor, header.signature_length)
    return Parcel(chain, cursor.rest())

"""Identities: the states of a secret, which give the seeds of its sets of keys, and what stands for the roots of all sets."""

from __future__ import annotations

from dataclasses import dataclass
from typing import List, Optional, Tuple

from . import keys
from .faults import Cursor, Fault

MARKS = {1: b"SMI1", 2: b"SMI2"}
MOST_LEVELS = 20
SECRET_BYTES = 32
HEAD_BYTES, ROOT_BYTES = 5, 32
Opening = Tuple[bytes, ...]


# States.


def set_seed(state: bytes) -> bytes:
    """The seed of a state's set (FORMATS.md#what-is-hashed)."""
    return keys.digest(b"\x40" + state)


def next_state(state: bytes) -> bytes:
    """The state behind a state (FORMATS.md#what-is-hashed)."""
    return keys.digest(b"\x41" + state)


def state_after(state: bytes, steps: int) -> bytes:
    """The state that stands so many steps behind a state (FORMATS.md#state-of-a-secret)."""
    for _ in range(steps):
        state = next_state(state)
    return state


@dataclass(frozen=True)
class NumberedState:
    """A state, the number of its set, and the id of the system whose runs it signs (FORMATS.md#state-of-a-secret)."""

    number: int
    state: bytes
    system: bytes

    def spell(self) -> bytes:
        """The bytes of the state, of which there are 68 (FORMATS.md#state-of-a-secret)."""
        return self.number.to_bytes(4, "big") + self.state + self.system

    def seed(self, system: bytes) -> Optional[bytes]:
        """The seed of the state's set for the system that it serves, and none for another (FORMATS.md#state-of-a-secret)."""
        return set_seed(self.state) if system == self.system else None

    def advance_to(self, number: int) -> NumberedState:
        """The state of a later set, or of the same (FORMATS.md#state-of-a-secret)."""
        return NumberedState(number, state_after(self.state, number - self.number), self.system)


def state_of_bytes(data: bytes) -> NumberedState:
    """The state that 68 bytes are (FORMATS.md#state-of-a-secret)."""
    return NumberedState(int.from_bytes(data[:4], "big"), data[4:36], data[36:68])


# Identities.


def set_leaf(root: bytes) -> bytes:
    """The leaf of a set's root (FORMATS.md#what-is-hashed)."""
    return keys.digest(b"\x42" + root)


def set_node(left: bytes, right: bytes) -> bytes:
    """The node above two nodes of an identity's tree (FORMATS.md#what-is-hashed)."""
    return keys.digest(b"\x43" + left + right)


@dataclass(frozen=True)
class Identity:
    """What stands for all sets of keys of a general: a number of levels, and a top (FORMATS.md#roots-of-an-identity)."""

    levels: int
    top: bytes

    def spell(self) -> bytes:
        """The bytes of the identity, of which there are 33 (FORMATS.md#roots-of-an-identity)."""
        return bytes([self.levels]) + self.top

    def opens(self, index: int, root: bytes, siblings: Opening) -> bool:
        """Whether an opening leads a root, as that of the set with an index, to the identity (FORMATS.md#opening)."""
        return len(siblings) == self.levels and index < 2 ** self.levels and top_above(root, index, siblings) == self.top


def top_above(root: bytes, index: int, siblings: Opening) -> bytes:
    """The top over a set's root and the siblings of its leaf (FORMATS.md#opening)."""
    node = set_leaf(root)
    for level, sibling in enumerate(siblings):
        node = set_node(sibling, node) if index >> level & 1 else set_node(node, sibling)
    return node


def spell_opening(siblings: Opening) -> bytes:
    """The bytes of an opening (FORMATS.md#opening)."""
    return bytes([len(siblings)]) + b"".join(siblings)


def read_opening(cursor: Cursor) -> Opening:
    """The opening in front of bytes, or O2; an early end is the cursor's fault (FORMATS.md#opening)."""
    count = cursor.number(1)
    if count > MOST_LEVELS:
        raise Fault("O2")
    return tuple(cursor.take(32) for _ in range(count))


@dataclass(frozen=True)
class Roots:
    """The roots of all sets of a secret, whose trees are those of a version (FORMATS.md#roots-of-an-identity)."""

    version: int
    roots: Tuple[bytes, ...]

    @property
    def levels(self) -> int:
        """The number of levels of the tree over the roots."""
        return len(self.roots).bit_length() - 1

    def spell(self) -> bytes:
        """The bytes of the roots (FORMATS.md#roots-of-an-identity)."""
        return MARKS[self.version] + bytes([self.levels]) + b"".join(self.roots)

    def rows(self) -> List[List[bytes]]:
        """The nodes of the tree over the roots, level by level from the leaves on (FORMATS.md#roots-of-an-identity)."""
        rows = [[set_leaf(root) for root in self.roots]]
        while len(rows[-1]) > 1:
            below = rows[-1]
            rows.append([set_node(below[at], below[at + 1]) for at in range(0, len(below), 2)])
        return rows

    def identity(self) -> Identity:
        """The identity over the roots (FORMATS.md#roots-of-an-identity)."""
        return Identity(self.levels, self.rows()[-1][0])

    def opening(self, index: int) -> Opening:
        """The opening of the set with an index (FORMATS.md#opening)."""
        return tuple(row[index >> level ^ 1] for level, row in enumerate(self.rows()[:-1]))


def read_roots(data: bytes) -> Roots:
    """The roots that bytes are, or the first of I1 to I4 (FORMATS.md#roots-of-an-identity)."""
    cursor = Cursor(data, "I1")
    mark = cursor.take(4)
    version = next((number for number in MARKS if MARKS[number] == mark), None)
    if version is None:
        raise Fault("I2")
    levels = cursor.number(1)
    if levels > MOST_LEVELS:
        raise Fault("I3")
    whole = cursor.take(32 * 2 ** levels)
    if not cursor.at_end():
        raise Fault("I4")
    return Roots(version, tuple(whole[at:at + 32] for at in range(0, len(whole), 32)))


def enroll(secret: bytes, version: int, levels: int) -> Roots:
    """The roots of the first sets of a secret, 2 to the power of the levels, or G1 (FORMATS.md#roots-of-an-identity)."""
    if len(secret) != SECRET_BYTES:
        raise Fault("G1")
    roots: List[bytes] = []
    state = secret
    for _ in range(2 ** levels):
        roots.append(keys.root(set_seed(state), keys.height_of(version)))
        state = next_state(state)
    return Roots(version, tuple(roots))


def missing_behind(front: bytes, whole: bytes) -> bytes:
    """The bytes of roots behind those that are there, or I5 (FORMATS.md#roots-of-an-identity)."""
    whole_roots = max(0, len(front) - HEAD_BYTES) // ROOT_BYTES
    last = HEAD_BYTES + ROOT_BYTES * max(0, whole_roots - 1)
    own = whole[:len(front)]
    if len(front) > len(whole) or front[:HEAD_BYTES] != own[:HEAD_BYTES] or front[last:] != own[last:]:
        raise Fault("I5")
    return whole[len(front):]


def identity_text(data: bytes) -> bytes:
    """The line with the top of the identity over roots (FORMATS.md#roots-of-an-identity)."""
    return read_roots(data).identity().top.hex().encode("ascii") + b"\n"

"""One-time signatures under Merkle trees, and the secrets that come from a seed."""

from __future__ import annotations

import hashlib
from functools import lru_cache
from typing import Dict, List, Sequence, Tuple

BITS = 256
LANE_BYTES = 8
CONSTANTS = (0x61707865, 0x3320646E, 0x79622D32, 0x6B206574)
HEIGHTS = {1: 4, 2: 6}
QUARTERS = ((0, 4, 8, 12), (1, 5, 9, 13), (2, 6, 10, 14), (3, 7, 11, 15),
            (0, 5, 10, 15), (1, 6, 11, 12), (2, 7, 8, 13), (3, 4, 9, 14))


def digest(text: bytes) -> bytes:
    """H of the documents: SHA-256 (FORMATS.md#formats)."""
    return hashlib.sha256(text).digest()


def height_of(version: int) -> int:
    """The height of a tree of a version: 4 or 6 (PROTOCOL.md#keys-and-signatures)."""
    return HEIGHTS[version]


def signature_length(height: int) -> int:
    """The bytes of a signature in a tree of this height (PROTOCOL.md#keys-and-signatures)."""
    return 64 * BITS + 32 * height


def general_seed(master: bytes, general: int) -> bytes:
    """A general's seed (FORMATS.md#what-is-hashed)."""
    return digest(b"\x30" + master + bytes([general]))


def _rotated(lanes: int, count: int, mask: int) -> int:
    """Each lane's 32 bits, rotated to the left by `count`."""
    return ((lanes << count) | (lanes >> (32 - count))) & mask


def _quarter(state: List[int], places: Tuple[int, int, int, int], mask: int) -> None:
    """The quarter round of RFC 8439 on four words of all blocks at once."""
    a, b, c, d = places
    for first, second, third, count in ((a, b, d, 16), (c, d, b, 12), (a, b, d, 8), (c, d, b, 7)):
        state[first] = (state[first] + state[second]) & mask
        state[third] = _rotated(state[third] ^ state[first], count, mask)


def chacha_blocks(key: bytes, stream: int, first: int, count: int) -> bytes:
    """The blocks `first` to `first + count - 1` of ChaCha20 (PROTOCOL.md#keys-and-signatures).

    A word of all blocks stands in one integer. A lane of 64 bits holds the word of one block in its
    lower half; the upper half takes what a sum or a shift carries, and is cleared by the mask.
    """
    ones = int.from_bytes(b"\x01\0\0\0\0\0\0\0" * count, "little")
    mask = ones * 0xFFFFFFFF
    counters = [first + block for block in range(count)]
    low = b"".join((value & 0xFFFFFFFF).to_bytes(LANE_BYTES, "little") for value in counters)
    high = b"".join((value >> 32).to_bytes(LANE_BYTES, "little") for value in counters)
    words = [word * ones for word in CONSTANTS]
    words += [int.from_bytes(key[4 * word:4 * word + 4], "little") * ones for word in range(8)]
    words += [int.from_bytes(low, "little"), int.from_bytes(high, "little")]
    words += [(stream & 0xFFFFFFFF) * ones, (stream >> 32) * ones]
    state = list(words)
    for _ in range(10):
        for places in QUARTERS:
            _quarter(state, places, mask)
    sums = [(state[word] + words[word]) & mask for word in range(16)]
    lanes = [total.to_bytes(LANE_BYTES * count, "little") for total in sums]
    return b"".join(lanes[word][LANE_BYTES * block:LANE_BYTES * block + 4]
                    for block in range(count) for word in range(16))


@lru_cache(maxsize=256)
def leaf_secrets(seed: bytes, height: int, leaf: int) -> bytes:
    """The 512 secrets of a leaf, bit by bit and side by side (PROTOCOL.md#keys-and-signatures).

    The secret of a bit and a side has eight words from word ((leaf * 256 + bit) * 2 + side) * 8 on.
    A block has 16 words, so it holds both secrets of one bit.
    """
    stream = 0 if height == 4 else 1
    return chacha_blocks(seed, stream, leaf * BITS, BITS)


def image(secret: bytes) -> bytes:
    """The image of a secret (FORMATS.md#what-is-hashed)."""
    return digest(b"\x00" + secret)


def node(left: bytes, right: bytes) -> bytes:
    """An inner node of a tree (FORMATS.md#what-is-hashed)."""
    return digest(b"\x02" + left + right)


def leaf_value(images: Sequence[bytes]) -> bytes:
    """The value of a leaf (FORMATS.md#what-is-hashed)."""
    return digest(b"\x01" + b"".join(images))


@lru_cache(maxsize=1024)
def tree(seed: bytes, height: int) -> Tuple[Tuple[bytes, ...], ...]:
    """The levels of a tree, from the leaf values up to the root (PROTOCOL.md#keys-and-signatures)."""
    values = []
    for leaf in range(2 ** height):
        secrets = leaf_secrets(seed, height, leaf)
        values.append(leaf_value([image(secrets[at:at + 32]) for at in range(0, len(secrets), 32)]))
    levels = [tuple(values)]
    while len(levels[-1]) > 1:
        below = levels[-1]
        levels.append(tuple(node(below[at], below[at + 1]) for at in range(0, len(below), 2)))
    return tuple(levels)


def root(seed: bytes, height: int) -> bytes:
    """The root of a general's tree."""
    return tree(seed, height)[-1][0]


def bit_of(text_digest: bytes, bit: int) -> int:
    """A bit of a digest, from the most significant bit of byte 0 on (PROTOCOL.md#keys-and-signatures)."""
    return text_digest[bit // 8] >> (7 - bit % 8) & 1


def sign(seed: bytes, height: int, leaf: int, text_digest: bytes) -> bytes:
    """The signature of a digest under a leaf (PROTOCOL.md#keys-and-signatures)."""
    secrets = leaf_secrets(seed, height, leaf)
    parts = []
    for bit in range(BITS):
        sides = (secrets[64 * bit:64 * bit + 32], secrets[64 * bit + 32:64 * bit + 64])
        side = bit_of(text_digest, bit)
        parts.append(sides[side] + image(sides[1 - side]))
    levels = tree(seed, height)
    siblings = [levels[level][leaf >> level ^ 1] for level in range(height)]
    return b"".join(parts + siblings)


def _verify(tree_root: bytes, height: int, leaf: int, text_digest: bytes, signature: bytes) -> bool:
    """Whether a signature verifies (PROTOCOL.md#keys-and-signatures)."""
    images = []
    for bit in range(BITS):
        own = image(signature[64 * bit:64 * bit + 32])
        other = signature[64 * bit + 32:64 * bit + 64]
        images += [other, own] if bit_of(text_digest, bit) else [own, other]
    value = leaf_value(images)
    for level in range(height):
        at = 64 * BITS + 32 * level
        sibling = signature[at:at + 32]
        value = node(sibling, value) if leaf >> level & 1 else node(value, sibling)
    return value == tree_root


class Verifier:
    """Verifications with their answers, so that no signature is verified twice."""

    LIMIT = 200_000

    def __init__(self) -> None:
        self.answers: Dict[bytes, bool] = {}

    def verify(self, tree_root: bytes, height: int, leaf: int, text_digest: bytes, signature: bytes) -> bool:
        """Whether a signature of a digest under a leaf verifies (PROTOCOL.md#keys-and-signatures)."""
        if len(signature) != signature_length(height):
            return False
        asked = digest(tree_root + bytes([height, leaf]) + text_digest + signature)
        if asked not in self.answers:
            if len(self.answers) >= self.LIMIT:
                self.answers.clear()
            self.answers[asked] = _verify(tree_root, height, leaf, text_digest, signature)
        return self.answers[asked]


VERIFIER = Verifier()

"""Signatures of RFC 8554: one-time signatures LM-OTS with Winternitz parameter 4, and LMS over trees of their keys.

The parameter sets are LMOTS_SHA256_N32_W4 and LMS_SHA256_M32_H5, H10, H15, H20 and H25. Secrets are made from a seed as
Appendix A of the RFC has it. Each function names the section that it states.
"""

from __future__ import annotations

import hashlib
from typing import List, NamedTuple, Optional, Sequence, Tuple

BYTES = 32
WIDTH = 4
CHAINS = 67
LAST = 2 ** WIDTH - 1
CHECKSUM_SHIFT = 4
OTS_TYPE = 3
OTS_BYTES = 4 + BYTES + CHAINS * BYTES
HEIGHTS = {5: 5, 6: 10, 7: 15, 8: 20, 9: 25}
OF_KEY, OF_MESSAGE, OF_LEAF, OF_INNER = 0x8080, 0x8181, 0x8282, 0x8383
RANDOMIZER_INDEX = 0xFFFD


class Refused(Exception):
    """Why a public key or a signature is no text of its kind: `length`, `type` or `leaf`."""


class PublicKey(NamedTuple):
    """A public key of LMS (5.3): the type of its tree, the identifier of 16 bytes and the root."""

    tree_type: int
    identifier: bytes
    root: bytes

    @property
    def height(self) -> int:
        """The height of the tree."""
        return HEIGHTS[self.tree_type]

    def spell(self) -> bytes:
        """The 56 bytes of the key (5.3)."""
        return _number(self.tree_type, 4) + _number(OTS_TYPE, 4) + self.identifier + self.root


class Signature(NamedTuple):
    """A signature of LMS (5.4): its leaf, the randomizer, the values of the chains and the path to the root."""

    leaf: int
    randomizer: bytes
    values: Sequence[bytes]
    path: Sequence[bytes]

    def spell(self) -> bytes:
        """The bytes of the signature (5.4)."""
        tree_type = {height: code for code, height in HEIGHTS.items()}[len(self.path)]
        return b"".join([_number(self.leaf, 4), _number(OTS_TYPE, 4), self.randomizer, *self.values,
                         _number(tree_type, 4), *self.path])


def _number(value: int, size: int) -> bytes:
    """A number as bytes, the highest first: u8str, u16str and u32str (3.1.1)."""
    return value.to_bytes(size, "big")


def _digest(*parts: bytes) -> bytes:
    """H: SHA-256 (3.1)."""
    return hashlib.sha256(b"".join(parts)).digest()


def coefficients(text: bytes) -> List[int]:
    """The halves of each byte, the upper one first: coef with w = 4 (3.1.3)."""
    return [half for byte in text for half in (byte >> 4, byte & 15)]


def checksum(digest: bytes) -> bytes:
    """The checksum of a digest (4.4, Algorithm 2)."""
    return _number(sum(LAST - it for it in coefficients(digest)) << CHECKSUM_SHIFT, 2)


def digits(key: bytes, leaf: int, randomizer: bytes, text: bytes) -> List[int]:
    """The 67 numbers that a signature of a text stands at: those of its digest, and of the checksum (4.5)."""
    digest = _digest(key, _number(leaf, 4), _number(OF_MESSAGE, 2), randomizer, text)
    return coefficients(digest + checksum(digest))[:CHAINS]


def advanced(key: bytes, leaf: int, chain: int, steps: range, value: bytes) -> bytes:
    """The value of a chain behind some of its steps (4.3, Algorithm 1)."""
    for step in steps:
        value = _digest(key, _number(leaf, 4), _number(chain, 2), _number(step, 1), value)
    return value


def secret(key: bytes, seed: bytes, leaf: int, index: int) -> bytes:
    """The secret at which a chain begins, or, at index 65533, a randomizer (Appendix A)."""
    return _digest(key, _number(leaf, 4), _number(index, 2), b"\xff", seed)


def one_time_key(key: bytes, leaf: int, ends: Sequence[bytes]) -> bytes:
    """K, the digest of the ends of all chains of a leaf (4.3)."""
    return _digest(key, _number(leaf, 4), _number(OF_KEY, 2), *ends)


def tree(key: bytes, seed: bytes, height: int) -> List[bytes]:
    """The nodes of a tree, from number 1, its root; number 0 is empty (5.3)."""
    leaves = 2 ** height
    nodes = [b""] * (2 * leaves)
    for leaf in range(leaves):
        ends = [advanced(key, leaf, it, range(LAST), secret(key, seed, leaf, it)) for it in range(CHAINS)]
        nodes[leaves + leaf] = leaf_node(key, leaves + leaf, one_time_key(key, leaf, ends))
    for number in range(leaves - 1, 0, -1):
        nodes[number] = inner_node(key, number, nodes[2 * number], nodes[2 * number + 1])
    return nodes


def leaf_node(key: bytes, number: int, one_time: bytes) -> bytes:
    """The node of a leaf (5.3)."""
    return _digest(key, _number(number, 4), _number(OF_LEAF, 2), one_time)


def inner_node(key: bytes, number: int, left: bytes, right: bytes) -> bytes:
    """The node over two nodes (5.3)."""
    return _digest(key, _number(number, 4), _number(OF_INNER, 2), left, right)


def public_key(tree_type: int, key: bytes, nodes: Sequence[bytes]) -> PublicKey:
    """The public key of a tree (5.3)."""
    return PublicKey(tree_type, key, nodes[1])


def sign(key: bytes, seed: bytes, nodes: Sequence[bytes], leaf: int, text: bytes,
         randomizer: Optional[bytes] = None) -> Signature:
    """The signature of a text under a leaf (4.5 and 5.4.1). A randomizer that is not given comes from the seed."""
    used = secret(key, seed, leaf, RANDOMIZER_INDEX) if randomizer is None else randomizer
    ends = enumerate(digits(key, leaf, used, text))
    values = [advanced(key, leaf, chain, range(end), secret(key, seed, leaf, chain)) for chain, end in ends]
    number, path = len(nodes) // 2 + leaf, []
    while number > 1:
        path.append(nodes[number ^ 1])
        number //= 2
    return Signature(leaf, used, values, path)


def read_public_key(text: bytes) -> PublicKey:
    """A public key from its bytes (5.4.2, Algorithm 6, steps 1 and 2)."""
    if len(text) < 8:
        raise Refused("length")
    tree_type = int.from_bytes(text[:4], "big")
    if tree_type not in HEIGHTS or text[4:8] != _number(OTS_TYPE, 4):
        raise Refused("type")
    if len(text) != 24 + BYTES:
        raise Refused("length")
    return PublicKey(tree_type, text[8:24], text[24:])


def read_signature(public: PublicKey, text: bytes) -> Signature:
    """A signature from its bytes, of the types of a public key (5.4.2, Algorithm 6a, step 2)."""
    if len(text) < 8:
        raise Refused("length")
    if text[4:8] != _number(OTS_TYPE, 4):
        raise Refused("type")
    if len(text) < 8 + OTS_BYTES:
        raise Refused("length")
    behind = 4 + OTS_BYTES
    if text[behind:behind + 4] != _number(public.tree_type, 4):
        raise Refused("type")
    leaf = int.from_bytes(text[:4], "big")
    if leaf >= 2 ** public.height or len(text) != behind + 4 + BYTES * public.height:
        raise Refused("leaf" if leaf >= 2 ** public.height else "length")
    values = _blocks(text[8 + BYTES:behind])
    return Signature(leaf, text[8:8 + BYTES], values, _blocks(text[behind + 4:]))


def _blocks(text: bytes) -> List[bytes]:
    """A text, cut into blocks of 32 bytes."""
    return [text[it:it + BYTES] for it in range(0, len(text), BYTES)]


def root_shown(key: bytes, signature: Signature, text: bytes) -> bytes:
    """The root that a signature of a text leads to (5.4.2, Algorithm 6a, with Algorithm 4b)."""
    leaf = signature.leaf
    ends: List[Tuple[int, int]] = list(enumerate(digits(key, leaf, signature.randomizer, text)))
    values = [advanced(key, leaf, chain, range(end, LAST), signature.values[chain]) for chain, end in ends]
    number = 2 ** len(signature.path) + leaf
    node = leaf_node(key, number, one_time_key(key, leaf, values))
    for beside in signature.path:
        node = inner_node(key, number // 2, *((beside, node) if number % 2 else (node, beside)))
        number //= 2
    return node


def verifies(public: bytes, text: bytes, signature: bytes) -> bool:
    """Whether a signature of a text holds under a public key (5.4.2, Algorithm 6). Raises Refused for what is no such text."""
    key = read_public_key(public)
    return root_shown(key.identifier, read_signature(key, signature), text) == key.root

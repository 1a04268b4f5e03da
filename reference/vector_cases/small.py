"""Vectors of keys, headers, chains, logs and frames."""

from __future__ import annotations

import hashlib
from typing import Any, Callable, Iterable, List, Optional, Sequence, Tuple

from model import keys
from model.chain import Chain, read_chain
from model.faults import Cursor, Fault
from model.log import Decide, Recv, Send, Sign, Start, read_log
from model.network import Header, Network, read_header
from model.show import listed

from .parts import Vector, given_as, packed, reading, with_byte
from .texts import everybody


# Keys.


def key_fields(master: bytes, general: int, version: int) -> Vector:
    """What a general's keys are."""
    seed, height = keys.general_seed(master, general), keys.height_of(version)
    first, last = keys.leaf_secrets(seed, height, 0), keys.leaf_secrets(seed, height, 2 ** height - 1)
    return {"general's seed": seed.hex(), "secret of leaf 0, bit 0, side 0": first[:32].hex(),
            "secret of leaf 0, bit 0, side 1": first[32:64].hex(),
            "secret of the last leaf, bit 255, side 1": last[-32:].hex(),
            "value of leaf 0": keys.tree(seed, height)[0][0].hex(), "root": keys.root(seed, height).hex()}


def signature_fields(master: bytes, general: int, version: int, leaf: int, text: bytes) -> Vector:
    """What a signature of a text is."""
    signature = keys.sign(keys.general_seed(master, general), keys.height_of(version), leaf,
                          keys.digest(text))
    return {"hash of the text": keys.digest(text).hex(), "length": len(signature),
            "first 64 bytes": signature[:64].hex(), "last 32 bytes": signature[-32:].hex(),
            "sha256": hashlib.sha256(signature).hexdigest()}


def hashed_fields(header: Header) -> Vector:
    """What is hashed of a run."""
    link = keys.digest(b"\x20" + header.run_id + b"\0")
    start = Start(0, 1).spell()
    after = keys.digest(b"\x21" + link + start)
    return {"run id": header.run_id.hex(), "link 0 of general 0": link.hex(), "entry 0": start.hex(),
            "link 1": after.hex(), "statement of order 1 with the path 0": header.statement(1, (0,)).hex(),
            "its hash": keys.digest(header.statement(1, (0,))).hex(), "its leaf": header.leaf(1),
            "head of 1 entry": header.head(0, 1, after).hex(),
            "hash of the head": keys.digest(header.head(0, 1, after)).hex(),
            "leaf of the head": header.leaf(None)}


def key_vectors() -> Iterable[Vector]:
    """Seeds, secrets, roots, signatures, and what is hashed."""
    masters = [bytes(32), bytes(range(32))]
    for master in masters:
        for general, version in ((0, 1), (1, 1), (15, 1), (0, 2), (3, 2)):
            yield {"about": f"the keys of general {general} in version {version}",
                   "master seed": master.hex(),
                   "general": general, "version": version, "result": key_fields(master, general, version)}
    for general, version, leaf in ((0, 1, 0), (0, 1, 15), (2, 1, 7), (0, 2, 0), (1, 2, 17), (2, 2, 63)):
        text = f"text {leaf}".encode()
        yield {"about": f"a signature of the bytes of the text under leaf {leaf}",
               "master seed": masters[1].hex(),
               "general": general, "version": version, "leaf": leaf, "text": text.decode(),
               "result": signature_fields(masters[1], general, version, leaf, text)}
    for header in (pair_header(1), pair_header(2, 0), pair_header(2, 3)):
        yield {"about": f"what is hashed of a run in version {header.version}, slot {header.slot}",
               **given_as(header.spell()), "result": hashed_fields(header)}


# Headers.


def network_of(generals: int, edges: Optional[Sequence[Tuple[int, int]]] = None, traitors: int = 0,
               diameter: int = 1, orders: int = 2, choice: int = 0) -> Network:
    """A network; where no edges are given, all are neighbours."""
    return Network(generals, tuple(everybody(generals) if edges is None else edges), traitors, diameter, orders, choice)


def header_of(network: Network, version: int = 1, slot: int = 0) -> Header:
    """A header whose roots are zero bytes: nothing that reads it looks at them."""
    return Header(version, slot, network, tuple(bytes(32) for _ in range(network.generals)))


def pair_header(version: int, slot: int = 0) -> Header:
    """The header of two generals."""
    return header_of(network_of(2), version, slot)


def header_fields(data: bytes) -> Vector:
    """The fields of a header in front of bytes."""
    cursor = Cursor(data, "H9")
    header = read_header(cursor, None)
    network = header.network
    return {"version": header.version, "slot": header.slot, "generals": network.generals,
            "traitors": network.traitors, "diameter": network.diameter, "orders": network.orders,
            "choice": network.choice, "edges": [list(edge) for edge in network.edges],
            "run id": header.run_id.hex(), "bytes behind it": len(cursor.rest())}


def header_vectors() -> Iterable[Vector]:
    """Headers, each fault of one, and which of two faults is answered."""
    one, two = pair_header(1).spell(), pair_header(2, 1).spell()
    good = [("two generals, version 1", one), ("two generals in slot 1, version 2", two),
            ("a header and bytes behind it", one + b"\1\2\3"),
            ("three generals in a line", header_of(network_of(3, [(0, 1), (1, 2)], 1, 2, 3, 1)).spell()),
            ("two generals without an edge", header_of(network_of(2, [])).spell()),
            ("the greatest network", header_of(network_of(16, None, 8, 8, 15, 1), 2, 3).spell())]
    bad = [("no bytes", b""), ("one byte", one[:1]), ("it ends inside the edges", one[:8]),
           ("it ends inside the roots", one[:-1]), ("the first byte is 0", with_byte(one, 0, 0)),
           ("the first byte is 3, and the bytes end", b"\3"), ("one general", with_byte(one, 1, 1)),
           ("17 generals, and the bytes end", with_byte(one, 1, 17)),
           ("17 generals", with_byte(one, 1, 17) + bytes(15 * 32)), ("no generals", with_byte(one, 1, 0)),
           ("an edge of general 2 of two", with_byte(one, 8, 2)),
           ("an edge to himself", with_byte(one, 8, 0)),
           ("an edge whose first end is the greater", one[:7] + b"\1\0" + one[9:]),
           ("an edge twice", one[:6] + b"\2\0\1\0\1" + one[9:]),
           ("edges that descend", header_of(network_of(3, [(1, 2), (0, 1)])).spell()),
           ("nine traitors", with_byte(one, 2, 9)), ("diameter 0", with_byte(one, 3, 0)),
           ("diameter 16", with_byte(one, 3, 16)), ("17 rounds", one[:2] + b"\x08\x09" + one[4:]),
           ("one order", with_byte(one, 4, 1)), ("16 orders", with_byte(one, 4, 16)),
           ("choice 2", with_byte(one, 5, 2)), ("slot 4", with_byte(two, 1, 4)),
           ("slot 4 and one order: the network is looked at first", with_byte(with_byte(two, 1, 4), 5, 1)),
           ("slot 4, and the bytes end", with_byte(two, 1, 4)[:-1]),
           ("nine traitors and diameter 0: the least fault", one[:2] + b"\x09\x00" + one[4:])]
    return [reading(about, data, header_fields) for about, data in good + bad]


# Chains.


def chain_of(order: int, path: Sequence[int], version: int) -> Chain:
    """A chain whose signatures are zero bytes."""
    length = keys.signature_length(keys.height_of(version))
    return Chain(order, tuple(path), tuple(bytes(length) for _ in path))


def chain_reader(version: int) -> Callable[[bytes], Vector]:
    """What reads a chain of a version in front of bytes."""

    def read(data: bytes) -> Vector:
        cursor = Cursor(data, "C1")
        chain = read_chain(cursor, keys.signature_length(keys.height_of(version)))
        return {"order": chain.order, "path": list(chain.path), "bytes behind it": len(cursor.rest())}

    return read


def chain_vectors() -> Iterable[Vector]:
    """Chains of both versions, and each fault of one."""
    cases: List[Tuple[str, bytes, int]] = []
    for version in (1, 2):
        one, two = (chain_of(1, path, version).spell() for path in ((0,), (0, 3)))
        cases += [("one signer", one, version), ("two signers", two, version),
                  ("order 14", with_byte(one, 0, 14), version), ("bytes behind it", two + b"\0\1", version),
                  ("16 signers", chain_of(0, range(16), version).spell(), version),
                  ("no bytes", b"", version), ("one byte, whose order is too great", b"\x0f", version),
                  ("a byte is missing", one[:-1], version),
                  ("a signer is missing", with_byte(one, 1, 2), version),
                  ("order 15, and nothing behind its length", b"\x0f\1", version),
                  ("no signers", with_byte(one, 1, 0), version),
                  ("17 signers", with_byte(one, 1, 17), version),
                  ("order 15 and no signers: from left to right", b"\x0f\0", version),
                  ("general 16 signed", with_byte(one, 2, 16), version),
                  ("a signer twice", chain_of(1, (0, 0), version).spell(), version),
                  ("general 1 signed first", with_byte(one, 2, 1), version),
                  ("general 1 signed twice: the number is looked at before who is first",
                   chain_of(1, (1, 1), version).spell(), version)]
    one, two = chain_of(1, (0,), 1).spell(), chain_of(1, (0,), 2).spell()
    cases += [("bytes of version 1 as a chain of version 2", one, 2),
              ("of version 2 as one of version 1", two, 1)]
    return [reading(about, data, chain_reader(version), version=version) for about, data, version in cases]


# Logs.


def log_header() -> Header:
    """The header under which logs are read: three generals, two rounds, three orders."""
    return header_of(network_of(3, None, 1, 1, 3))


def entry_text(entry: Any) -> str:
    """An entry in words."""
    if isinstance(entry, Start):
        return f"START general {entry.general} order {'none' if entry.own is None else entry.own}"
    if isinstance(entry, Sign):
        return f"SIGN order {entry.order} path {listed(entry.path)}"
    if isinstance(entry, Send):
        return f"SEND to {entry.to} order {entry.order} path {listed(entry.path)}"
    if isinstance(entry, Recv):
        return f"RECV from {entry.sender} order {entry.chain.order} path {listed(entry.chain.path)}"
    return f"DECIDE set {listed(entry.orders)} order {entry.order}"


def log_fields(data: bytes) -> Vector:
    """The fields of a log."""
    log = read_log(data, log_header())
    return {"run id": log.run_id.hex(), "entries": [entry_text(entry) for entry in log.entries]}


def log_of(*entries: Any) -> bytes:
    """The bytes of a log; an entry is one of the model's, or bytes."""
    spelt = [entry if isinstance(entry, bytes) else entry.spell() for entry in entries]
    return bytes(32) + len(spelt).to_bytes(8, "big") + b"".join(spelt) + bytes(16_512)


def good_logs() -> Iterable[Tuple[str, bytes]]:
    """Logs that read."""
    zeros = bytes(16_512)
    whole = [Start(1, None), Recv(0, chain_of(1, (0,), 1)), Sign(1, (0, 1), zeros), Send(2, 1, (0, 1)),
             Recv(2, chain_of(2, (0, 2), 1)), Decide((1, 2), 0)]
    yield "the log of a commander", log_of(Start(0, 1), Sign(1, (0,), zeros), Send(1, 1, (0,)),
                                           Decide((1,), 1))
    yield "the log of a lieutenant with each kind of entry", log_of(*whole)
    yield "START and DECIDE alone, with an empty set", log_of(Start(2, None), Decide((), 0))
    yield "another run id", b"\xff" * 32 + log_of(*whole)[32:]
    yield "what no follower writes reads too", log_of(Start(2, 2), Send(2, 0, (0, 1)), Decide((0, 1, 2), 2))


def first_faults() -> Iterable[Tuple[str, bytes]]:
    """Logs with faults of L1, L2 and L3."""
    end = Decide((), 0)
    plain = log_of(Start(1, None), end)
    signed = log_of(Start(1, None), b"\2\1\1\0" + bytes(16_512), end)
    yield from [("no bytes", b""), ("the run id alone", plain[:32]),
                ("the number of entries is cut", plain[:39]),
                ("no first entry", plain[:40]), ("START is cut", plain[:42]), ("DECIDE is cut", plain[:46]),
                ("the head's signature is missing", plain[:47]), ("its last byte is missing", plain[:-1]),
                ("the signature of a SIGN is cut", signed[:60]),
                ("an entry begins with 0", with_byte(plain, 40, 0)),
                ("an entry begins with 6", with_byte(plain, 43, 6))]
    for about, entry in [("START of general 3 of three", b"\1\3\xff"),
                         ("START with order 3 of three", b"\1\1\3")]:
        yield about, log_of(entry, end)
    for about, entry in [
            ("SIGN of order 3", b"\2\3\1\0"), ("a path of length 0", b"\2\1\0"),
            ("a path longer than the rounds", b"\2\1\3"),
            ("a path that begins with general 1", b"\2\1\1\1"),
            ("a path with a general twice", b"\2\1\2\0\0"),
            ("a path with general 3, where the bytes end behind it", b"\2\1\2\0\3"),
            ("SEND to general 3", b"\3\3"),
            ("RECV from general 3", b"\4\3")]:
        yield about, log_of(Start(1, None), entry)[:43 + len(entry)]
    for about, chain in [("a chain of order 3", chain_of(3, (0,), 1)),
                         ("a chain of general 3", chain_of(1, (0, 3), 1)),
                         ("a chain of three signers in two rounds", chain_of(1, (0, 1, 2), 1))]:
        yield f"RECV of {about}", log_of(Start(1, None), Recv(0, chain), end)
    yield "a set with order 3", log_of(Start(1, None), Decide((3,), 0))
    yield "DECIDE of order 3", log_of(Start(1, None), Decide((1,), 3))


def later_faults() -> Iterable[Tuple[str, bytes]]:
    """Logs with faults of L4, L5 and L6, and which of two faults is answered."""
    start, end, send = Start(1, None), Decide((), 0), Send(2, 1, (0, 1))
    chain = chain_of(1, (0,), 1).spell()
    yield from [("no entries, and the bytes end", bytes(40)), ("DECIDE is first", log_of(end, end)),
                ("START twice", log_of(start, start, end)),
                ("a last entry that is not DECIDE", log_of(start, send)),
                ("DECIDE with an entry still to come", log_of(start, end, end)),
                ("START alone, and no signature", log_of(start)[:43]),
                ("an entry twice", log_of(start, send, send, end)),
                ("SEND before the SIGN of its round",
                 log_of(start, send, b"\2\1\2\0\1" + bytes(16_512), end)),
                ("RECV before a SEND of its round",
                 log_of(start, Recv(2, chain_of(1, (0, 2), 1)), send, end)),
                ("SENDs whose receivers descend", log_of(start, send, Send(0, 1, (0, 1)), end)),
                ("an entry of round 2 before one of round 1",
                 log_of(start, send, Recv(0, chain_of(1, (0,), 1)), end)),
                ("SEND before START, whose general is too great: L3 is looked at first",
                 log_of(b"\3\3", start))]
    for about, entry in [("one that ends", chain[:9]), ("of order 15", b"\x0f\1"),
                         ("without signers", b"\1\0"),
                         ("of general 16", with_byte(chain, 2, 16)),
                         ("that begins with general 1", with_byte(chain, 2, 1))]:
        yield f"RECV of a chain, {about}", log_of(start, b"\4\0" + entry)[:45 + len(entry)]
    yield "a byte is left over", log_of(start, end) + b"\0"


def log_vectors() -> Iterable[Vector]:
    """Logs, and each fault of one."""
    header = packed(log_header().spell())
    cases = [*good_logs(), *first_faults(), *later_faults()]
    return [reading(about, data, log_fields, header=header) for about, data in cases]


# Frames.


def read_frame(data: bytes, run_id: bytes, number: int, sender: int, receiver: int) -> Vector:
    """The parcels of a frame that is awaited, or the first of F3 to F8 (FORMATS.md#frame)."""
    cursor = Cursor(data, "F3")
    if cursor.take(4) != b"SMF1":
        raise Fault("F4")
    head = cursor.take(35)
    parcels = [cursor.take(cursor.number(4)).hex() for _ in range(cursor.number(2))]
    if not cursor.at_end():
        raise Fault("F5")
    for fault, same in (("F6", head[:32] == run_id), ("F7", head[32] == number),
                        ("F8", head[33:] == bytes([sender, receiver]))):
        if not same:
            raise Fault(fault)
    return {"parcels": parcels}


def frame_vectors() -> Iterable[Vector]:
    """Frames of a sender from whom one is awaited."""
    run_id = bytes(range(32))
    front = b"SMF1" + run_id + b"\2\0\3"
    empty, two = front + b"\0\0", front + b"\0\2" + b"\0\0\0\1\xaa" + b"\0\0\0\0"
    awaited = {"run id": run_id.hex(), "round": 2, "sender": 0, "receiver": 3}
    cases = [("no parcels", empty), ("two parcels, the second of them empty", two), ("no bytes", b""),
             ("three bytes", b"SMF"),
             ("another mark", b"SMF2" + empty[4:]), ("another mark, and the bytes end", b"SMF2"),
             ("the front is cut", empty[:-1]),
             ("a parcel is missing", two[:-4]), ("a length is cut", two[:-1]),
             ("a byte is left over", empty + b"\0"),
             ("a byte is left over in a frame of another run", with_byte(empty, 4, 9) + b"\0"),
             ("another run id", with_byte(empty, 35, 0)),
             ("another round", with_byte(empty, 36, 1)), ("another sender", with_byte(empty, 37, 1)),
             ("another receiver", with_byte(empty, 38, 2)),
             ("another run id, round and receiver", with_byte(with_byte(empty, 4, 9), 38, 2)),
             ("another round and sender", with_byte(with_byte(empty, 36, 1), 37, 1))]
    return [reading(about, data, lambda given: read_frame(given, run_id, 2, 0, 3), awaited=awaited) for about,
            data in cases]

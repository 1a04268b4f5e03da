"""Vectors of version 3, a draft of which stands in docs/VERSION-3.md: no command reads it yet."""

from __future__ import annotations

from itertools import combinations
from typing import Any, Callable, Iterable, List, Optional, Sequence, Tuple

from model import lms
from model.bundle import Exhibit
from model.faults import Cursor
from model.log import Recv, Send, Sign, Start
from model.network import Network
from model.show import listed
from model.version_3 import audit, bundle, chain, evidence, header, log, node, plan, receipt, text

from .parts import Vector, given_as, reading, with_byte
from .small import entry_text

HEIGHT, TYPE = 5, 5
PAYLOAD, VALUE = b"close the valve", header.value_of(b"close the valve")
SIGNATURE = bytes(2188 + 32 * HEIGHT)


def network_of(generals: int, traitors: int = 0, diameter: int = 1, edges: Optional[Sequence[Tuple[int, int]]] = None) -> Network:
    """A network of three orders; where no edges are given, all are neighbours."""
    return Network(generals, tuple(combinations(range(generals), 2) if edges is None else edges), traitors, diameter, 3, 0)


def system_of(network: Network, proposer: int = 0, most: int = 1000, tree_type: int = TYPE) -> header.System:
    """A system whose keys have zero bytes as roots: nothing that reads it looks at them."""
    public = tuple(lms.PublicKey(tree_type, bytes([it]) * 16, bytes(32)) for it in range(network.generals))
    return header.System(network, most, proposer, bytes(range(32)), public)


def pair_header(run: int = 1) -> header.Header:
    """A run of two generals."""
    return header.Header(system_of(network_of(2)), run)


# Systems and headers.


def header_fields(data: bytes) -> Vector:
    """The fields of a header in front of bytes."""
    cursor = Cursor(data, "H9")
    read = header.read_header(cursor)
    system, network = read.system, read.network
    return {"run": read.run, "run id": read.run_id.hex(), "system id": system.system_id.hex(), "payload": system.most,
            "proposer": system.proposer, "height": system.height, "runs": system.runs, "length of a signature": system.signature_length,
            "generals": network.generals, "edges": [list(edge) for edge in network.edges],
            "nodes": [system.node_of(read.run, it) for it in range(network.generals)], "bytes behind it": len(cursor.rest()),
            "longest frame": plan.longest_frame(read), "longest log": plan.longest_log(read)}


def system_fields(data: bytes) -> Vector:
    """The fields of a system in a file."""
    system = header.read_system_file(data)
    return {"system id": system.system_id.hex(), "runs": system.runs}


def header_vectors() -> Iterable[Vector]:
    """Headers and systems, each fault of one, and which of two faults is answered."""
    one, line = pair_header().spell(), system_of(network_of(3, 1, 2, [(0, 1), (1, 2)]), 1)
    most, keys = 13, 50
    good = [("a run of two generals", one), ("bytes behind it", one + b"\1\2"), ("the last run of ten", pair_header(9).spell()),
            ("a line of three, of which node 1 proposes", header.Header(line, 4).spell()),
            ("keys of height 25, and the last run", header.Header(system_of(network_of(2), tree_type=9), 11184809).spell())]
    bad = [("no bytes", b""), ("version 4", with_byte(one, 0, 4)), ("it ends in the keys", one[:-1]), ("one general", with_byte(one, 5, 1)),
           ("an edge to itself", with_byte(one, 12, 0)), ("two orders", with_byte(one, 8, 2)), ("choice 1", with_byte(one, 9, 1)),
           ("a payload of 2^20 + 1 bytes", one[:most] + (2 ** 20 + 1).to_bytes(4, "big") + one[most + 4:]),
           ("proposer 2", with_byte(one, 17, 2)), ("a tree of another type", with_byte(one, keys + 3, 10)),
           ("one-time keys of another type", with_byte(one, keys + 7, 4)), ("another height than that of node 0", with_byte(one, keys + 59, 6)),
           ("two equal keys", one[:keys] + one[keys:keys + 56] * 2), ("run 10 of ten", with_byte(one, 4, 10)),
           ("the last number of a run", one[:1] + b"\xff" * 4 + one[5:]),
           ("two equal keys in run 10: the less number", with_byte(one[:keys] + one[keys:keys + 56] * 2, 4, 10))]
    file = header.MARK + one[5:]
    files = [("a system", file), ("it ends early", file[:-1]), ("another mark", b"SMS1" + file[4:]), ("one general", with_byte(file, 4, 1)),
             ("a byte behind it", file + b"\0")]
    return [reading(f"header: {about}", data, header_fields) for about, data in [*good, *bad]] + \
           [reading(f"system: {about}", data, system_fields) for about, data in files]


def text_vectors() -> Iterable[Vector]:
    """Texts of a system, and each fault of one that version 1 has not so."""
    front = "generals 2\nedge 0 1\ntraitors 0\ndiameter 1\norders 3\nchoice 0\n"
    keys = [f"key {it.spell().hex()}\n" for it in system_of(network_of(2)).keys]
    whole = front + "payload 1000\n" + "".join(keys) + "end\n"
    tall = system_of(network_of(2), tree_type=6).keys[1].spell().hex()
    cases = [("a system", whole), ("digits of the other case", whole.replace(keys[1], keys[1].upper().replace("KEY", "key"))),
             ("no line of the payload", whole.replace("payload 1000\n", "")),
             ("a payload with a leading zero", whole.replace("payload 1000", "payload 01000")), ("two orders", whole.replace("orders 3", "orders 2")),
             ("choice 1", whole.replace("choice 0", "choice 1")), ("two orders, and a payload that does not read",
                                                                   whole.replace("orders 3", "orders 2").replace("1000", "-")),
             ("a payload of 2^20 + 1 bytes", whole.replace("1000", "1048577")), ("a payload of 2^32 bytes", whole.replace("1000", "4294967296")),
             ("a key of 110 digits", whole.replace(keys[1], keys[1][:-3] + "\n")), ("a tree of another type", whole.replace("key 00000005", "key 0000000a")),
             ("another height", whole.replace(keys[1], f"key {tall}\n")), ("a key is missing", whole.replace(keys[1], "")),
             ("two equal keys", whole.replace(keys[1], keys[0])), ("a line behind the end", whole + "\n")]
    return [reading(f"text: {about}", data.encode("ascii"), text_fields) for about, data in cases]


def text_fields(data: bytes) -> str:
    """The system of a text with proposer 0 and a context of zero bytes, in hexadecimal digits."""
    return text.system_of_text(data, 0, bytes(32)).spell().hex()


# Chains and logs, whose signatures are zero bytes.


def chain_of(order: int, *signers: Tuple[int, int]) -> chain.Chain:
    """A chain of these generals, each with its own order."""
    return chain.Chain(order, tuple(chain.Signer(general, own, SIGNATURE) for general, own in signers))


def chain_fields(data: bytes) -> Vector:
    """The fields of a chain in front of bytes."""
    cursor = Cursor(data, "C1")
    read = chain.read_chain(cursor, len(SIGNATURE))
    return {"order": read.order, "path": list(read.path), "orders of signers": [it.order for it in read.signers],
            "bytes behind it": len(cursor.rest())}


def chain_vectors() -> Iterable[Vector]:
    """Chains, and each fault of one."""
    one, two = chain_of(1, (0, 1)).spell(), chain_of(2, (0, 1), (3, 2)).spell()
    cases = [("one signer", one), ("two signers, of which the second has order 2", two), ("a payload behind it", two + PAYLOAD),
             ("no bytes", b""), ("order 0", with_byte(one, 0, 0)), ("order 3", with_byte(one, 0, 3)), ("no signers", with_byte(one, 1, 0)),
             ("17 signers", with_byte(one, 1, 17)), ("a signer is missing", with_byte(one, 1, 2)), ("a signer's byte is 32", with_byte(one, 2, 32)),
             ("general 0 twice, with both orders", chain_of(1, (0, 1), (0, 2)).spell()), ("general 1 signed first", with_byte(one, 2, 1))]
    return [reading(f"chain: {about}", data, chain_fields) for about, data in cases]


def log_header() -> header.Header:
    """The header under which logs are read: three generals, two rounds."""
    return header.Header(system_of(network_of(3, 1, 1)), 2)


def log_fields(data: bytes) -> Vector:
    """The entries of a log, and what its orders stand for."""
    read = log.read_log(data, log_header())
    return {"run id": read.run_id.hex(), "entries": [entry_text(it) for it in read.entries], "values": [it.hex() for it in read.decided.values]}


def log_of(*entries: Any) -> bytes:
    """The bytes of a log."""
    return log.ValueLog(log_header().run_id, entries, SIGNATURE).spell()


def decided(*orders: int, order: int = 0, values: Optional[Sequence[bytes]] = None) -> log.DecideValues:
    """DECIDE with a value for each order of the set."""
    return log.DecideValues(orders, order, tuple(header.value_of(bytes([it])) for it in orders) if values is None else tuple(values))


def log_vectors() -> Iterable[Vector]:
    """Logs, and each fault of one that version 1 has not so."""
    start, sign, send = Start(1, None), Sign(1, (0, 1), SIGNATURE), Send(2, 1, (0, 1))
    recv: List[Any] = [Recv(0, chain_of(order, (0, order))) for order in (1, 2)]  # type: ignore[arg-type]
    last = decided(1, 2)
    good = [("a lieutenant that names two values", log_of(start, *recv, sign, send, last)), ("RETREAT, and nothing came", log_of(start, decided())),
            ("the commander", log_of(Start(0, 1), Sign(1, (0,), SIGNATURE), decided(1, order=1))),
            ("an order outside the set is decided", log_of(start, decided(2, order=1)))]
    bad = [("own order 0", log_of(Start(1, 0), decided())), ("own order 3", log_of(Start(1, 3), decided())),
           ("a SIGN of order 0", log_of(start, Sign(0, (0, 1), SIGNATURE), last)), ("a SEND of order 3", log_of(start, Send(2, 3, (0, 1)), last)),
           ("a RECV of order 0", log_of(start, Recv(0, chain_of(0, (0, 1))), last)),  # type: ignore[arg-type]
           ("order 0 in the set", log_of(start, decided(0, 1))), ("order 3 in the set", log_of(start, decided(3))),
           ("order 3 is decided", log_of(start, decided(order=3))),
           ("two equal values", log_of(start, decided(1, 2, values=[VALUE, VALUE]))),
           ("two equal values in a DECIDE that is not last", log_of(start, decided(1, 2, values=[VALUE, VALUE]), last)),
           ("it ends in the values", log_of(start, last)[:60]), ("RECVs that descend", log_of(start, *recv[::-1], last))]
    return [reading(f"log: {about}", data, log_fields, header=given_as(log_header().spell())["input"]) for about, data in [*good, *bad]]


# A run of two generals that follow, with keys of height 5.


def ring_of(number: int) -> node.Ring:
    """The keys of a node."""
    return node.Ring(bytes([number]) * 16, bytes([number + 32]) * 32, HEIGHT)


def pair_run() -> Tuple[header.Header, List[node.Node]]:
    """A run of two generals, in which each node proposes in its turn: node 1 in this one."""
    system = header.System(network_of(2, 0, 1), len(PAYLOAD), 1, bytes(range(32)), tuple(ring_of(it).public() for it in range(2)))
    run = header.Header(system, 3)
    return run, node.play(run, [ring_of(it) for it in range(2)], PAYLOAD)


def judged(about: str, shown: bundle.Bundle) -> Vector:
    """A bundle with the text of the verdict on it."""
    data = shown.spell()
    read: Callable[[bytes], str] = lambda given: evidence.verdict_text(audit.judge(bundle.read_bundle(given)))
    return reading(f"bundle: {about}", data, read)


def accused_fields(data: bytes) -> Vector:
    """What evidence says, and whether it holds."""
    read = evidence.read_evidence(data)
    return {"accused": read.accused, "kind": f"K{read.claim.kind}", "holds": read.holds()}


def shown_words(data: bytes) -> str:
    """What receipts show."""
    return listed_outcomes(receipt.read_receipts(data).shown())


def listed_outcomes(outcomes: Sequence[Optional[bytes]]) -> str:
    """Outcomes with commas."""
    return ",".join("retreat" if it is None else it.hex() for it in outcomes) or listed(())


def run_vectors() -> Iterable[Vector]:
    """What is signed in a run, its frame, its bundle, receipts, and evidence of each kind of two texts."""
    run, nodes = pair_run()
    frame = nodes[0].frames(1)[1][0]
    statement, leaf = run.statement(1, VALUE, (0,)), run.leaf(1)
    commander = run.system.node_of(run.run, 0)
    yield {"about": "the commander's statement and its signature", "identifier": ring_of(commander).identifier.hex(),
           "seed": ring_of(commander).seed.hex(), "public key": run.key(0).spell().hex(), "payload": PAYLOAD.hex(), "text": statement.hex(),
           "leaf": leaf, "signature": ring_of(commander).sign(leaf, statement).hex()}
    yield {"about": "the parcel of round 1", **given_as(frame), "result": {"order": 1, "path": [0], "value": VALUE.hex(), "payload": PAYLOAD.hex()}}
    exhibits = [Exhibit(it.general, it.log().spell()) for it in nodes]
    yield judged("both follow", bundle.make_bundle(run, (), exhibits))
    yield judged("general 1 shows nothing", bundle.make_bundle(run, (), exhibits[:1]))
    yield judged("general 0 is assumed faulty", bundle.make_bundle(run, (0,), exhibits))
    yield reading("receipts: both", b"".join(receipt.receipt_of_log(run, it.general, it.log()).spell(run) for it in nodes), shown_words)
    yield from evidence_vectors(run)


def evidence_vectors(run: header.Header) -> Iterable[Vector]:
    """Evidence against the commander, which signs what no follower signs."""
    keys = ring_of(run.system.node_of(run.run, 0))

    def signed(text: evidence.Text, leaf: int) -> evidence.Signed:
        """A text that the commander signs under a leaf."""
        return evidence.Signed(text, keys.sign(leaf, text.signed_as(run, 0)))

    first, second, third = (evidence.Statement(order, header.value_of(data), (0,)) for order, data in ((1, b"open"), (2, b"close"), (1, b"")))
    later = evidence.Other(header.Header(run.system, run.run + 1).statement(1, VALUE, (0,)))
    one = signed(first, run.leaf(1))
    for about, claim in (("two values under order 1", evidence.Two(1, one, signed(third, run.leaf(1)))),
                         ("two values of the commander", evidence.Two(2, one, signed(second, run.leaf(2)))),
                         ("a text of another run under a leaf of this one", evidence.Two(1, one, signed(later, run.leaf(1)))),
                         ("a text of another run under another leaf", evidence.Two(1, one, signed(later, run.leaf(2))))):
        yield reading(f"evidence: {about}", evidence.Evidence(run, 0, claim).spell(), accused_fields)


def value_vectors() -> Iterable[Vector]:
    """All vectors of version 3."""
    for make in (header_vectors, text_vectors, chain_vectors, log_vectors, run_vectors):
        yield from make()

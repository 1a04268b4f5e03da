"""Systems: what many runs of the same nodes have in common, and admissions, which show the roots of a set of keys."""

from __future__ import annotations

from dataclasses import dataclass
from functools import cached_property
from typing import Any, Dict, List, Optional, Sequence, Tuple

from . import keys
from .faults import Cursor, Fault
from .identity import MOST_LEVELS, Identity, Opening, read_roots, spell_opening
from .network import Header, Network, read_header
from .prepare import header_of_text

MARK = b"SMS1"
ADMISSION_MARK = b"SMA1"
FIRST, TURNS = 0, 1
# How many runs each set of keys serves, by the version.
RUNS_OF_SET = {1: 1, 2: 4}


@dataclass(frozen=True)
class System:
    """The network of all runs with the tops of the identities, who proposes, the levels, and a context (FORMATS.md#system)."""

    header: Header
    proposer: int
    levels: int
    context: bytes

    def spell(self) -> bytes:
        """The bytes of the system (FORMATS.md#system)."""
        return MARK + self.header.spell() + bytes([self.proposer, self.levels]) + self.context

    @cached_property
    def id(self) -> bytes:
        """The hash of a system (FORMATS.md#what-is-hashed)."""
        return keys.digest(b"\x44" + self.spell())

    @property
    def nodes(self) -> int:
        """The number of nodes, which is that of generals of each run."""
        return self.header.network.generals

    @property
    def sets(self) -> int:
        """The number of sets of keys of each node (FORMATS.md#system)."""
        return 2 ** self.levels

    @property
    def runs_of_set(self) -> int:
        """The number of runs of each set (FORMATS.md#system)."""
        return RUNS_OF_SET[self.header.version]

    def identity(self, node: int) -> Identity:
        """The identity of a node."""
        return Identity(self.levels, self.header.roots[node])

    def set_of(self, run: int) -> int:
        """The set of keys of a run (FORMATS.md#runs-of-a-system)."""
        return run // self.runs_of_set

    def slot_of(self, run: int) -> int:
        """The slot of a run (FORMATS.md#runs-of-a-system)."""
        return run % self.runs_of_set

    def node_of(self, run: int, general: int) -> int:
        """Which node a general of a run is (FORMATS.md#runs-of-a-system)."""
        return general if self.proposer == FIRST else (run + general) % self.nodes

    def nodes_of(self, run: int) -> List[int]:
        """Which nodes the generals of a run are, general 0 first (FORMATS.md#runs-of-a-system)."""
        return [self.node_of(run, general) for general in range(self.nodes)]

    def net_of(self, run: int) -> Network:
        """The network of a run (FORMATS.md#runs-of-a-system)."""
        net = self.header.network
        pairs = [(a, b) for b in range(self.nodes) for a in range(b)]
        edges = [(a, b) for a, b in sorted(pairs) if net.joined(self.node_of(run, a), self.node_of(run, b))]
        return Network(net.generals, tuple(edges), net.traitors, net.diameter, net.orders, net.choice)


def system_in_front(cursor: Cursor) -> System:
    """The system in front of bytes, or the first of U2 to U7; an early end is the cursor's fault (FORMATS.md#system)."""
    if cursor.take(4) != MARK:
        raise Fault("U2")
    try:
        header = read_header(cursor, None)
    except Fault as inner:
        raise (Fault("U3 " + inner.words) if inner.words[0] == "H" else inner) from None
    if header.slot != 0:
        raise Fault("U4")
    if header.equal_roots():
        raise Fault("U5")
    proposer = cursor.number(1)
    if proposer not in (FIRST, TURNS):
        raise Fault("U6")
    levels = cursor.number(1)
    if levels > MOST_LEVELS:
        raise Fault("U7")
    return System(header, proposer, levels, cursor.take(32))


def read_system(data: bytes) -> System:
    """The system that bytes are, or the first of U1 to U8 (FORMATS.md#system)."""
    cursor = Cursor(data, "U1")
    system = system_in_front(cursor)
    if not cursor.at_end():
        raise Fault("U8")
    return system


def system_of_text(text: bytes, version: int, turns: bool, levels: int, context: bytes) -> System:
    """The system of the text of a header, whose roots are the tops of identities, or the text's fault (FORMATS.md#system)."""
    header = header_of_text(text, None if version == 1 else 0)
    return System(header, TURNS if turns else FIRST, levels, context)


# Admissions.


@dataclass(frozen=True)
class Admission:
    """A system, and of one set of keys the root of each node with its opening (FORMATS.md#admission)."""

    system: System
    number: int
    roots: Tuple[bytes, ...]
    openings: Tuple[Opening, ...]

    def spell(self) -> bytes:
        """The bytes of the admission (FORMATS.md#admission)."""
        parts = [ADMISSION_MARK, self.system.spell(), self.number.to_bytes(4, "big")]
        for root, opening in zip(self.roots, self.openings):
            parts += [root, spell_opening(opening)]
        return b"".join(parts)

    def holds(self) -> bool:
        """Whether each opening leads its root to the identity of its node (FORMATS.md#admission)."""
        return all(self.system.identity(node).opens(self.number, root, opening)
                   for node, (root, opening) in enumerate(zip(self.roots, self.openings)))

    def header_of(self, run: int) -> Header:
        """The header of a run of the set (FORMATS.md#runs-of-a-system)."""
        system = self.system
        roots = tuple(self.roots[system.node_of(run, general)] for general in range(system.nodes))
        return Header(system.header.version, system.slot_of(run), system.net_of(run), roots)

    def runs(self) -> List[int]:
        """The numbers of the runs of the set, ascending (FORMATS.md#runs-of-a-system)."""
        first = self.number * self.system.runs_of_set
        return list(range(first, first + self.system.runs_of_set))


def admits(system: System, run: int, header: Header, admission: Admission) -> bool:
    """Whether an admission shows that a header is that of a run of a system (FORMATS.md#admission)."""
    return (admission.system == system and run in admission.runs() and admission.holds()
            and header == admission.header_of(run))


def _read_root(cursor: Cursor, levels: int) -> Tuple[bytes, Opening]:
    """A root and its opening, or A5 (FORMATS.md#admission)."""
    root = cursor.take(32)
    if cursor.number(1) != levels:
        raise Fault("A5")
    return root, tuple(cursor.take(32) for _ in range(levels))


def read_admission(data: bytes) -> Admission:
    """The admission that bytes are, or the first of A1 to A6 (FORMATS.md#admission)."""
    cursor = Cursor(data, "A1")
    if cursor.take(4) != ADMISSION_MARK:
        raise Fault("A2")
    try:
        system = system_in_front(cursor)
    except Fault as inner:
        raise (Fault("A3 " + inner.words) if inner.words[0] == "U" else inner) from None
    number = cursor.number(4)
    if number >= system.sets:
        raise Fault("A4")
    shown = [_read_root(cursor, system.levels) for _ in range(system.nodes)]
    if not cursor.at_end():
        raise Fault("A6")
    return Admission(system, number, tuple(root for root, _ in shown), tuple(opening for _, opening in shown))


def _root_shown(system: System, number: int, node: int, named: int, data: bytes) -> Tuple[bytes, Opening]:
    """The root of a set with its opening by the file of roots that stands in the place of a node, or its first fault."""
    if named != node:
        raise Fault("A9")
    roots = read_roots(data)
    if roots.version != system.header.version or roots.identity() != system.identity(node):
        raise Fault(f"A10 node {node}")
    return roots.roots[number], roots.opening(number)


def admission_of_files(data: bytes, run: int, nodes: Sequence[int], files: Sequence[bytes]) -> Admission:
    """The admission of the set of a run, by the system and the roots of each node, or its first fault (FORMATS.md#admission)."""
    system = read_system(data)
    number = system.set_of(run)
    if number >= system.sets:
        raise Fault("A8")
    if len(files) != system.nodes:
        raise Fault("A9")
    shown = [_root_shown(system, number, node, *named) for node, named in enumerate(zip(nodes, files))]
    return Admission(system, number, tuple(root for root, _ in shown), tuple(opening for _, opening in shown))


def held_admission(data: bytes, system: Optional[bytes]) -> Admission:
    """The admission that bytes are, which holds and is of the system of an id, or its first fault (FORMATS.md#admission)."""
    admission = read_admission(data)
    if not admission.holds():
        raise Fault("A7")
    if system not in (None, admission.system.id):
        raise Fault("A11")
    return admission


def admitted_header(data: bytes, run: int) -> Header:
    """The header of a run that an admission admits, or its first fault (FORMATS.md#admission)."""
    admission = held_admission(data, None)
    if run not in admission.runs():
        raise Fault("A8")
    return admission.header_of(run)


# Admitted runs.


def admitted_text(admission: Admission, runs: Sequence[int]) -> bytes:
    """The lines of some runs of an admission (FORMATS.md#admitted-runs)."""
    system = admission.system
    lines = [f"system {system.id.hex()}"] + [f"run {run} nodes {' '.join(map(str, system.nodes_of(run)))}" for run in runs]
    return "".join(f"{line}\n" for line in lines).encode("ascii")


def admitted_value(admission: Admission, runs: Sequence[int]) -> Dict[str, Any]:
    """The object of some runs of an admission (FORMATS.md#admitted-runs)."""
    system = admission.system
    told = [{"nodes": system.nodes_of(run), "number": run, "run": admission.header_of(run).run_id.hex()} for run in runs]
    return {"runs": told, "system": system.id.hex()}

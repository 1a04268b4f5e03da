"""Identities of nodes over many runs, systems of them, and the admissions that show the roots of a run."""

from __future__ import annotations

import ctypes
import hashlib
from dataclasses import dataclass
from typing import Iterable, Optional, Tuple

from ._headers import Header, read_header
from ._jobs import Expected, answered, runs_of
from ._libraries import Bytes, Roots, SystemId, as_bytes, exactly, number, system_id_of
from ._verdicts import SystemRun

CONTEXT_BYTES = 32


@dataclass(frozen=True)
class Admitted:
    """The header of a run that an admission admits, and which run of which system it is of."""

    header: Header
    run: SystemRun


def enroll(secret: Bytes, levels: int, version: int) -> bytes:
    """The file of roots of the 2^levels sets of keys of a secret, 0 to 20 levels, for runs of version 1 or 2. It is public.

    A secret is 32 secret bytes, as of secrets.token_bytes(32). Another length is InputFault. The keys of all sets are made,
    in the calling thread alone, which takes long and can't be stopped: `sm_tool enroll` has workers.
    """
    data = as_bytes(secret)
    words = number(version, 1 << 32, "version"), number(levels, 1 << 32, "levels"), data, len(data)
    return answered("enroll", *words)[1]


def identity(roots: Bytes) -> str:
    """The top of the identity over a file of roots: 64 hexadecimal digits, which stand in the place of a root in the text of
    system().
    """
    data = as_bytes(roots)
    return answered("identity", data, len(data))[1].decode("ascii").strip()


def system(text: Bytes, levels: int, version: int, context: Bytes, *, turns: bool = False) -> bytes:
    """The system of the text of a header, whose roots are the tops of the nodes' identities. Who judges pins its
    system_id() once.

    The levels are those of each identity, and the version is that of its runs. The context is 32 bytes that the users agree
    on, as the hash of their plan of rounds and of what the values (orders) mean. With `turns`, node r mod n proposes in
    run r, in place of node 0.
    """
    data = as_bytes(text)
    numbers = number(version, 1 << 32, "version"), number(levels, 1 << 32, "levels"), int(turns)
    return answered("system", *numbers, exactly(CONTEXT_BYTES, context, "a context"), data, len(data))[1]


def system_id(system: Bytes) -> str:
    """The id of a system, 64 hexadecimal digits, by the hash of docs/FORMATS.md."""
    return hashlib.sha256(b"\x44" + as_bytes(system)).hexdigest()


def admission(run: int, system: Bytes, roots: Iterable[Tuple[int, Bytes]]) -> bytes:
    """The admission of the set of a run, from a system and pairs of a node's number and its file of roots, node 0 first.
    It serves for each run of this set. Misuse for a node above 15.
    """
    data = as_bytes(system)
    files = [(number(node, 1 << 32, "node"), as_bytes(file)) for node, file in roots]
    given = (Roots * max(len(files), 1))(*((node, file, len(file)) for node, file in files))
    return answered("admission", number(run, 1 << 32, "run"), data, len(data), given, len(files))[1]


def admit(run: int, admission: Bytes, *, system: Optional[SystemId] = None) -> Admitted:
    """The header of a run of an admission, and which run it is. OtherSystem is raised if the admission is not of the system
    whose id is `system`. Without it anybody's admission counts: compare the id in `run`.
    """
    data, own = as_bytes(admission), b"" if system is None else system_id_of(system)
    _, header, facts = answered("admit", number(run, 1 << 32, "run"), data, len(data), own, len(own))
    (of_run,) = runs_of(facts)
    return Admitted(read_header(header), of_run)


def system_runs(given: Bytes, admission: Bytes, *, system: Optional[SystemId] = None) -> Tuple[SystemRun, ...]:
    """Which runs of a system a header, a bundle, a campaign or evidence is of, by an admission of their set. OtherRun is
    raised for another run, and OtherSystem if the admission is not of the system whose id is `system`.
    """
    data = as_bytes(given)
    return runs_of(answered("show", data, len(data), Expected(None, admission, system).options())[2])

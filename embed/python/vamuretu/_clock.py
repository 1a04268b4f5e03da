"""Which run of a system a node begins next, by the clock."""

from __future__ import annotations

import ctypes
from dataclasses import dataclass
from typing import Optional

from ._faults import Misuse
from ._headers import must
from ._libraries import NODES, library, number

NO = 1
# In place of a run: there is none.
NO_RUN = (1 << 32) - 1


@dataclass(frozen=True)
class NextRun:
    """The number of a run, and when the run begins."""

    number: int
    begins: int


def _time(value: int, name: str) -> int:
    """A time that a call takes."""
    if not -(1 << 63) <= value < 1 << 63:
        raise Misuse(f"{name} {value} does not fit into 64 bits")
    return value


def next_run(now: int, *, start: int, period: int, mark: Optional[int]) -> Optional[NextRun]:
    """The run that a node begins next, or None if no run is left. Times are whole numbers of one unit, as milliseconds since
    1970: run r begins at start + r * period. The mark is the number of the newest run that the node has begun, or None. The
    next run is the least above the mark that begins now or later. A system can have fewer runs: compare.
    """
    times = _time(now, "now"), _time(start, "start"), number(period, 1 << 64, "period")
    run, begins = ctypes.c_uint32(), ctypes.c_int64()
    newest = NO_RUN if mark is None else number(mark, NO_RUN, "mark")
    status = library(NODES).sm_node_next_run(*times, newest, ctypes.byref(run), ctypes.byref(begins))
    if status == NO:
        return None
    must(status, "sm_node_next_run")
    return NextRun(run.value, begins.value)

"""A device that obeys the decisions of a system, of which it knows the id and the timetable alone."""

from __future__ import annotations

import ctypes
import enum
from dataclasses import dataclass
from typing import Optional, Tuple

from ._clock import next_run
from ._faults import InputFault, OtherSystem
from ._headers import must
from ._libraries import NODES, Bytes, SystemId, as_bytes, library, number, system_id_of
from ._libraries import Admitted as Told
from ._nodes import shown

# The admission is of another system.
OTHER = 7
RUNS = 1 << 32
# So many periods ago a run may have begun that is obeyed.
OLDEST = 3


@dataclass(frozen=True)
class AdmittedRun:
    """What an admission tells of a run: its run id, 64 hexadecimal digits, the number of faulty nodes that it is planned for
    (m), and the number of the node that proposes.
    """

    run_id: str
    traitors: int
    proposer: int


def admitted_run(system: SystemId, run: int, admission: Bytes) -> AdmittedRun:
    """The run with this number of the system with this id, which an admission of its set admits. The admission may come from
    anybody.

    InputFault has A1 to A8, or the fault of a header. OtherSystem if the admission holds for the run, and is of another
    system.
    """
    data, made, told = as_bytes(admission), Told(), ctypes.c_uint32(0)
    words = system_id_of(system), number(run, RUNS, "run"), data, len(data), ctypes.byref(made), ctypes.byref(told)
    status = library(NODES).sm_node_admit(*words)
    if status == OTHER:
        raise OtherSystem("fault A11")
    must(status, "sm_node_admit", told)
    return AdmittedRun(bytes(made.run_id).hex(), made.traitors, made.proposer)


class Refusal(enum.Enum):
    """Why a decision is not obeyed."""

    NOT_LATER = "the run is not above the last one that was obeyed"
    OLD = "the run began too long ago"
    NOT_ADMITTED = "the admission does not admit the run in this system"
    NO_RECEIPTS = "these are no receipts of the run"
    NOT_SHOWN = "the receipts show no value, or several"


class NotObeyed(Exception):
    """A decision is not obeyed, and nothing was changed. `refusal` says why. The __cause__ is the fault of the bytes, if
    there is one.
    """

    def __init__(self, refusal: Refusal) -> None:
        super().__init__(refusal.value)
        self.refusal = refusal

    def __reduce__(self) -> Tuple[type, Tuple[Refusal]]:
        return NotObeyed, (self.refusal,)


class Device:
    """A device that obeys the decisions of one system. It knows the id of the system, and the timetable: run r begins at
    start + r * period, in milliseconds since 1970.

    `newest` is the number of the last run that was obeyed, or None. `oldest` says how many periods ago a run may have begun
    that is obeyed. A run that takes longer than a period needs as many more.
    """

    def __init__(self, system: SystemId, *, start: int, period: int, oldest: int = OLDEST) -> None:
        self.system = system_id_of(system)
        self.start = start
        self.period = period
        self.oldest = oldest
        self.newest: Optional[int] = None

    def refusal(self, run: int, now: int) -> Optional[Refusal]:
        """Why a run is not obeyed at this time, whatever is shown of it. None if it is new."""
        if self.newest is not None and run <= self.newest:
            return Refusal.NOT_LATER
        first = next_run(now - self.oldest * self.period, start=self.start, period=self.period, mark=None)
        return Refusal.OLD if first is None or run < first.number else None

    def obey(self, run: int, admission: Bytes, receipts: Bytes, now: int) -> int:
        """The value (order) that is to be obeyed: that of a run which is new at this time, if the admission admits the run
        in the system, and receipts of more than m nodes show this one value. All of it may come from anybody.

        A run is new if its number is above that of the last run that was obeyed, and it began at most `oldest` periods ago.
        Otherwise NotObeyed is raised. After a MemoryError the same call may be made again.
        """
        refusal = self.refusal(run, now)
        if refusal is not None:
            raise NotObeyed(refusal)
        order = self._shown(run, admission, receipts)
        if order is None:
            raise NotObeyed(Refusal.NOT_SHOWN)
        self.newest = run
        return order

    def _shown(self, run: int, admission: Bytes, receipts: Bytes) -> Optional[int]:
        """The one value (order) that receipts show of a run that an admission admits."""
        try:
            run_id = admitted_run(self.system, run, admission).run_id
        except InputFault as fault:
            raise NotObeyed(Refusal.NOT_ADMITTED) from fault
        try:
            return shown(run_id, receipts)
        except InputFault as fault:
            raise NotObeyed(Refusal.NO_RECEIPTS) from fault

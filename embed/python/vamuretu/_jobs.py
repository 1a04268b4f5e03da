"""What sm_tool does over bytes. Threads may call at the same time."""

from __future__ import annotations

import ctypes
import json
from dataclasses import dataclass
from typing import Any, Iterable, List, NamedTuple, Optional, Tuple

from ._faults import InputFault, Misuse, Nobody, OtherRun, OtherSystem
from ._headers import Header, after_mark
from ._libraries import JOBS, RUN_ID_BYTES, Bytes, Fact, Options, RunId, SystemId, as_bytes, held, library, number
from ._libraries import run_id_of, system_id_of
from ._verdicts import Judgement, Receipts, RunDecision, SystemRun, decisions_of, judgement_of, receipts_of

YES, NO, MISUSE, FAULT, MEMORY = range(5)
NOBODY, OTHER_RUN = 6, 7
# The forms of an answer.
TEXT, JSON = 0, 1
# The line of an admission of another system than the one that is expected.
OTHER_SYSTEM = "fault A11"
RUNS_MOST = 4
MARK_BYTES = 4
# What may be expected: the run ids or the run id, an admission, and the id of its system.
Runs, Run = Optional[Iterable[RunId]], Optional[RunId]
Admission, System = Optional[Bytes], Optional[SystemId]
# The kind of evidence that has the header of another run.
ACROSS = 5
# The kinds of facts of an admission.
FACT_SYSTEM, FACT_NODE = 10, 11


@dataclass(frozen=True)
class Evidence:
    """Evidence in bytes, and what stands in front of its claim: the header of the run, the accused node (general), and
    the kind, 1 to 5 (docs/FORMATS.md). Kind 5 has the header of another run too. `holds` says whether the claim holds.

    Whose run it is only the header says, so expect the run that you mean, or compare the run id of the header.
    """

    data: bytes
    header: Header
    accused: int
    kind: int
    other: Optional[Header]
    holds: bool


def _checked(job: str, status: int, text: bytes, facts: List[Fact]) -> Tuple[bool, bytes, List[Fact]]:
    """Whether the answer of a job is a no, its text, and its facts."""
    if status == FAULT:
        raise InputFault(text.decode("ascii"))
    if status == OTHER_RUN:
        line = text.decode("ascii")
        raise OtherSystem(line) if line == OTHER_SYSTEM else OtherRun(line)
    if status == MEMORY:
        raise MemoryError(f"sm_{job}: memory was refused")
    if status == NOBODY:
        raise Nobody(f"sm_{job}: the general is none of the run's")
    if status not in (YES, NO):
        raise Misuse(f"sm_{job}: the call is not allowed here")
    return status == NO, text, facts


def answered(job: str, *words: Any) -> Tuple[bool, bytes, List[Fact]]:
    """The answer of a job on words: whether it is a no, its text, and its facts."""
    function = getattr(library(JOBS), f"sm_{job}")
    return _checked(job, *held(JOBS, lambda answer: int(function(*words, answer))))


def _made(job: str, given: Bytes, *behind: Any, general: Tuple[int, ...] = ()) -> Tuple[bool, bytes]:
    """The answer of a job on an input. Options or a second input stand behind the input, and a general before it."""
    data = as_bytes(given)
    return answered(job, *general, data, len(data), *behind)[:2]


def runs_of(facts: List[Fact]) -> Tuple[SystemRun, ...]:
    """The runs of a system that facts tell."""
    nodes = [(it.run, it.other) for it in facts if it.kind == FACT_NODE]
    return tuple(
        SystemRun(bytes(it.run_id).hex(), it.number, tuple(node for run, node in nodes if run == it.run))
        for it in facts
        if it.kind == FACT_SYSTEM
    )


class Expected(NamedTuple):
    """What an input is expected to be of: runs, or what an admission of a system admits. Of nothing any run is taken."""

    runs: Runs
    admission: Admission
    system: System

    def ids(self) -> List[bytes]:
        """The run ids."""
        if self.runs is None:
            return []
        # A text is no list of run ids. The library takes any run for an empty list, which a caller may have by mistake.
        if isinstance(self.runs, (str, bytes, bytearray, memoryview)):
            raise Misuse("runs is a list of run ids, and not one of them")
        ids = [run_id_of(it) for it in self.runs]
        if not 1 <= len(ids) <= RUNS_MOST:
            raise Misuse(f"{len(ids)} runs are expected, and not 1 to {RUNS_MOST}: for any run leave runs out")
        return ids

    def options(self, form: int = TEXT, receipts: bool = False) -> Any:
        """The options that ask for it, with a form, and whether the input is receipts."""
        ids, admission = self.ids(), b"" if self.admission is None else as_bytes(self.admission)
        if self.admission is not None and (ids or not admission):
            raise Misuse("run ids stand beside an admission, or it has no bytes: expect one of both")
        system = b"" if self.system is None else system_id_of(self.system)
        if system and not admission:
            raise Misuse("the id of a system is expected without an admission")
        of_system = {"admission": admission, "admission_bytes": len(admission), "system": system, "system_bytes": len(system)}
        return ctypes.byref(Options(b"".join(ids), len(ids), 0, form, receipts, **of_system))


ANY = Expected(None, None, None)


def of_one(run: Run, admission: Admission, system: System) -> Expected:
    """The same of a run that may be expected."""
    return Expected(None if run is None else (run,), admission, system)


def audit(given: Bytes, *, runs: Runs = None, admission: Admission = None, system: System = None) -> Judgement:
    """The verdict on a bundle or a campaign. Its str() is the text that `sm_tool audit` writes.

    With `runs`, the input must be of these runs: of a campaign those of all its runs in their order. If it is of others,
    OtherRun is raised. Without `runs` an input of any run is judged, and an empty list is Misuse.

    With `admission` in place of `runs`, the input must be of runs of the set of this admission, and the admission of the
    system whose id is `system`, or else OtherSystem is raised. Without `system` anybody's admission counts. Each verdict then has its `system_run`, and
    str() is the text behind the lines on the system.
    """
    data, options = as_bytes(given), Expected(runs, admission, system).options(JSON)
    _, text, facts = answered("audit", data, len(data), options)
    return judgement_of(json.loads(text), runs_of(facts))


def audit_json(given: Bytes, *, runs: Runs = None, admission: Admission = None, system: System = None) -> str:
    """The verdict as one line with a JSON object, as `sm_tool audit --json` writes it. What is expected is as of `audit`."""
    return _made("audit", given, Expected(runs, admission, system).options(JSON))[1].decode("ascii")


def draw(given: Bytes, *, runs: Runs = None, admission: Admission = None, system: System = None) -> str:
    """The picture of a bundle or a campaign and of the verdict on it, an SVG text. What is expected is as of `audit`."""
    return _made("draw", given, Expected(runs, admission, system).options())[1].decode("ascii")


def accuse(
    general: int,
    given: Bytes,
    *,
    runs: Runs = None,
    admission: Admission = None,
    system: System = None,
    receipts: bool = False,
) -> Optional[bytes]:
    """The evidence against a node (general) that a bundle or a campaign holds, or None. With `receipts`, receipts are
    given: the evidence is two heads that the node signed.

    Misuse for a node above 15, and Nobody, which is a Misuse, for another that is none of the run's. What is expected is as
    of `audit`, and is compared first.
    """
    asked = Expected(runs, admission, system).options(receipts=receipts)
    is_no, data = _made("accuse", given, asked, general=(number(general, 16, "general"),))
    return None if is_no else data


def receipt(
    general: int, given: Bytes, *, run: Run = None, admission: Admission = None, system: System = None
) -> Optional[bytes]:
    """The receipt of the log of a node (general) in a bundle, or None if no log of it has a receipt that holds.

    Misuse and Nobody are as of `accuse`. With `run`, OtherRun is raised if the bundle is of another run. `admission` and
    `system` are as of `audit`.
    """
    is_no, data = _made("receipt", given, of_one(run, admission, system).options(), general=(number(general, 16, "general"),))
    return None if is_no else data


def receipts(given: Bytes, *, run: Run = None, admission: Admission = None, system: System = None) -> Receipts:
    """Which values (orders) receipts show, one behind another. Its str() is the text that `sm_tool receipts` writes.
    With `run`, OtherRun is raised if they are of another run. `admission` and `system` are as of `audit`. Without any of
    these the receipts name the run and its keys themselves, and anybody can write such receipts.
    """
    return receipts_of(json.loads(receipts_json(given, run=run, admission=admission, system=system)))


def receipts_json(given: Bytes, *, run: Run = None, admission: Admission = None, system: System = None) -> str:
    """The same as one line with a JSON object, as `sm_tool receipts --json` writes it."""
    return _made("receipts", given, of_one(run, admission, system).options(JSON))[1].decode("ascii")


def refute(given: Bytes, log: Bytes) -> Optional[str]:
    """The answer of an accused node (general) to evidence, by the log that the node kept, or None.

    The answer is a line: `forged` and the text of the evidence that the log does not have, or `collision` and two
    strings of bytes with one hash. A node that followed the algorithm has one to evidence of a run by its log of that
    run, and to evidence across two runs by its log of the first. InputFault is of the evidence, or else of the log.
    """
    other = as_bytes(log)
    is_no, text = _made("refute", given, other, len(other))
    return None if is_no else text.decode("ascii")


def evidence(given: Bytes, *, run: Run = None, admission: Admission = None, system: System = None) -> Evidence:
    """What evidence says, and whether it holds. With `run`, OtherRun is raised if its header is that of another run.
    `admission` and `system` are as of `audit`.
    """
    data = as_bytes(given)
    is_no, _ = _made("evidence", data, of_one(run, admission, system).options())
    of_run = after_mark(data, MARK_BYTES)
    at = MARK_BYTES + len(of_run.data)
    other = after_mark(data, at + 2) if data[at + 1] == ACROSS else None
    return Evidence(data, of_run, data[at], data[at + 1], other, not is_no)


def evidence_json(given: Bytes, *, run: Run = None, admission: Admission = None, system: System = None) -> str:
    """What evidence says, and whether it holds, as one line with a JSON object, as `sm_tool evidence --json` writes it.
    What is expected is as of `evidence`.
    """
    return _made("evidence", given, of_one(run, admission, system).options(JSON))[1].decode("ascii")


def decide(scenario: Bytes) -> Tuple[RunDecision, ...]:
    """What each node (general) without a script decides in the run of a scenario's text, ascending."""
    return decisions_of(json.loads(decide_json(scenario)))


def decide_json(scenario: Bytes) -> str:
    """The same as one line with a JSON object, as `sm_tool decide --json` writes it."""
    return _made("decide", scenario, ANY.options(JSON))[1].decode("ascii")


def run_ids(given: Bytes) -> Tuple[str, ...]:
    """The ids of the runs that a file is of, in hexadecimal digits: one of a header, of a bundle or of evidence, and of a
    campaign those of its runs in their order. InputFault if the input is no whole file of one of these kinds.
    """
    try:
        _, ids = _made("run_id", given)
    except InputFault:
        raise InputFault("the input is no whole header, bundle, campaign or evidence") from None
    return tuple(ids[at : at + RUN_ID_BYTES].hex() for at in range(0, len(ids), RUN_ID_BYTES))


def show(given: Bytes, *, runs: Runs = None, admission: Admission = None, system: System = None) -> Tuple[bool, str]:
    """Whether a file is a whole bundle, campaign, evidence or header, and what it is, as `sm_tool show` writes it.

    What is expected is as of `audit`. With it a file that is not whole is OtherRun too, as nothing says of which run it is.
    """
    is_no, text = _made("show", given, Expected(runs, admission, system).options())
    return not is_no, text.decode("ascii")


def show_json(
    given: Bytes, *, runs: Runs = None, admission: Admission = None, system: System = None
) -> Tuple[bool, str]:
    """The same as lines with a JSON object each, as `sm_tool show --json` writes them."""
    is_no, text = _made("show", given, Expected(runs, admission, system).options(JSON))
    return not is_no, text.decode("ascii")


def explain(name: str) -> Optional[str]:
    """What a name means that stands in an answer, as `sm_tool explain` writes it, or None if it is no name.

    A name is that of a finding, a conviction, a fault or a verdict, as "N8", "K2", "B3 H6" or "agreed", and the line of
    an InputFault. A whole line of a verdict is none. The empty name has all names, a line each.
    """
    is_no, text = _made("explain", name.encode("utf-8"))
    return None if is_no else text.decode("ascii")


def words(text: Bytes) -> bytes:
    """A text with what each of its lines means behind the line, as `sm_tool words` writes it."""
    return _made("words", text)[1]


def plan(given: Bytes) -> Tuple[bool, str]:
    """Whether the plan of a header holds, and the text on it, as `sm_tool plan` writes it.

    What is given is a header, its text for version 1, a bundle or a campaign, of which the first header is taken.
    """
    is_no, text = _made("plan", given)
    return not is_no, text.decode("ascii")

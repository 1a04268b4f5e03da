"""Judges runs of signed Byzantine agreement, and runs one node (general) of a run.

The work is done by two shared libraries, libsm_embed.so and libsm_node.so, which are called in this process. README.md
says where they are looked for, and docs/EMBED.md of the sources what each call does.
"""

from ._clock import NextRun, next_run
from ._combining import Combination, combine
from ._devices import AdmittedRun, Device, NotObeyed, Refusal, admitted_run
from ._faults import EqualRoots, InputFault, LibraryMissing, Misuse, Nobody, NodeFault, NoWalk, OlderState, OtherRun
from ._faults import OtherSystem, StateFault, UsedSet
from ._headers import Header, header, read_header
from ._jobs import Evidence, accuse, audit, audit_json, decide, decide_json, draw, evidence, evidence_json, explain
from ._jobs import plan, receipt, receipts, receipts_json, refute, run_ids, show, show_json, words
from ._kept import KeptState
from ._libraries import use_libraries, version
from ._nodes import FrameHead, Keys, Node, bundle, frame_head, root, shown
from ._states import SetState
from ._systems import Admitted, admission, admit, enroll, identity, system, system_id, system_runs
from ._verdicts import (
    AcrossConviction,
    CampaignVerdict,
    Conviction,
    Decision,
    Finding,
    Judgement,
    Kind,
    Receipt,
    Receipts,
    RunDecision,
    Status,
    SystemRun,
    Verdict,
)

__all__ = [
    "AcrossConviction",
    "Admitted",
    "AdmittedRun",
    "CampaignVerdict",
    "Combination",
    "Conviction",
    "Decision",
    "Device",
    "EqualRoots",
    "Evidence",
    "Finding",
    "FrameHead",
    "Header",
    "InputFault",
    "Judgement",
    "KeptState",
    "Keys",
    "Kind",
    "LibraryMissing",
    "Misuse",
    "NextRun",
    "NoWalk",
    "Nobody",
    "Node",
    "NodeFault",
    "NotObeyed",
    "OlderState",
    "OtherRun",
    "OtherSystem",
    "Receipt",
    "Receipts",
    "Refusal",
    "RunDecision",
    "SetState",
    "StateFault",
    "Status",
    "SystemRun",
    "UsedSet",
    "Verdict",
    "accuse",
    "admission",
    "admit",
    "admitted_run",
    "audit",
    "audit_json",
    "bundle",
    "combine",
    "decide",
    "decide_json",
    "draw",
    "enroll",
    "evidence",
    "evidence_json",
    "explain",
    "frame_head",
    "header",
    "identity",
    "next_run",
    "plan",
    "read_header",
    "receipt",
    "receipts",
    "receipts_json",
    "refute",
    "root",
    "run_ids",
    "show",
    "show_json",
    "shown",
    "system",
    "system_id",
    "system_runs",
    "use_libraries",
    "version",
    "words",
]

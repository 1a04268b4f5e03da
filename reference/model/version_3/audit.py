"""Audits of version 3: what is found against the logs of the rest, and the text of the verdict (VERSION-3.md#judging)."""

from __future__ import annotations

from dataclasses import dataclass
from functools import cached_property
from typing import Dict, List, Optional, Set, Tuple

from ..audit import Finding, exhibit_findings, told_logs, unjoined
from ..bundle import Exhibit
from ..faults import Fault
from ..follow import departs
from ..log import Recv, Send, Sign
from ..network import Path
from .bundle import Bundle
from .header import Header
from .log import NAMES, ValueLog, read_log

Message = Tuple[int, int, Path]


@dataclass(frozen=True)
class Report:
    """What one exhibit says: how it reads, which signatures verify, where it departs."""

    exhibit: Exhibit
    header: Header

    @cached_property
    def reading(self) -> Tuple[Optional[ValueLog], str]:
        """The log, or nothing and the fault."""
        try:
            return read_log(self.exhibit.data, self.header), ""
        except Fault as fault:
            return None, fault.words

    @property
    def log(self) -> Optional[ValueLog]:
        """The log, where the bytes are one."""
        return self.reading[0]

    @property
    def fault(self) -> str:
        """Why the bytes are no log, or nothing."""
        return self.reading[1]

    @property
    def told(self) -> Optional[ValueLog]:
        """The log, where it says that it is of this run and of this general."""
        log = self.log
        return log if log is not None and (log.run_id, log.general) == (self.header.run_id, self.exhibit.general) else None

    @cached_property
    def unverified(self) -> Optional[int]:
        """The first entry with a signature that does not verify, N5."""
        log = self.log
        assert log is not None
        return next((at for at, entry in enumerate(log.entries) if not self._verifies(log, entry)), None)

    def _verifies(self, log: ValueLog, entry: object) -> bool:
        """Whether the signatures of an entry verify for the values of the log."""
        if isinstance(entry, Sign):
            value = log.stated(entry.order)
            return self.header.signed_statement(entry.path[-1], entry.order, value, entry.path, entry.signature)
        return not isinstance(entry, Recv) or entry.chain.verifies(self.header, log.stated(entry.chain.order))  # type: ignore

    @cached_property
    def sealed(self) -> bool:
        """Whether the signature of the head verifies, N6."""
        return self.log is not None and self.log.sealed(self.header, self.exhibit.general)  # type: ignore[arg-type]

    @cached_property
    def departs(self) -> Optional[int]:
        """The entry with which the log, by its own orders, departs, N7."""
        assert self.log is not None
        return departs(self.header.network, self.exhibit.general, self.log.entries)


def _is_full(log: ValueLog, number: int) -> bool:
    """Whether RECVs of both orders stand in a log, of rounds up to a number."""
    came = {entry.chain.order for entry in log.entries if isinstance(entry, Recv) and len(entry.chain.path) <= number}
    return set(NAMES) <= came


def _left_out(log: ValueLog, value: Optional[bytes], number: int) -> bool:
    """Whether a SEND of a value in a round is left out by the general of this log."""
    return log.order_of(value) == 0 and _is_full(log, number)


def _sent(sender: ValueLog, receiver: ValueLog, to: int) -> Set[Message]:
    """What a log sent to another general, without what it left out: round, order and path."""
    sends = [entry for entry in sender.entries if isinstance(entry, Send) and entry.to == to]
    return {(len(it.path), it.order, it.path) for it in sends if not _left_out(receiver, sender.value_of(it.order), len(it.path))}


def _received(sender: ValueLog, receiver: ValueLog, source: int) -> Set[Message]:
    """What a log received of another general, by the sender's orders: round, order and path."""
    come = [entry.chain for entry in receiver.entries if isinstance(entry, Recv) and entry.sender == source]
    return {(len(it.path), sender.order_of(receiver.value_of(it.order)) or it.order + 2, it.path) for it in come}


def _unmatched(told: Dict[int, ValueLog]) -> Set[Finding]:
    """N8 (VERSION-3.md#judging)."""
    found: Set[Finding] = set()
    for a, sender in told.items():
        for b, receiver in told.items():
            apart = _sent(sender, receiver, b) ^ _received(sender, receiver, a)
            found |= {Finding(8, (a, b), (number,), order) for number, order, _ in apart}
    return found


def _derives(bundle: Bundle, told: Dict[int, ValueLog], receiver: ValueLog, order: int, path: Path) -> bool:
    """Whether what came from the faulty derives from SENDs of the rest to the faulty, by the receiver's orders."""
    ends = [at for at, general in enumerate(path) if general not in bundle.faulty]
    if not ends:
        return True
    front = path[:ends[-1] + 1]
    sources = [(log, entry) for log in told.values() for entry in log.entries if isinstance(entry, Send) and entry.to in bundle.faulty]
    return any(receiver.order_of(log.value_of(entry.order)) == order and len(entry.path) < len(path) and entry.path[:len(front)] == front
               for log, entry in sources)


def _underived(bundle: Bundle, told: Dict[int, ValueLog]) -> Set[Finding]:
    """N9 (VERSION-3.md#judging)."""
    found: Set[Finding] = set()
    for b, log in told.items():
        come = [entry for entry in log.entries if isinstance(entry, Recv) and entry.sender in bundle.faulty]
        found |= {Finding(9, (entry.sender, b), (len(entry.chain.path),), entry.chain.order) for entry in come
                  if not _derives(bundle, told, log, entry.chain.order, entry.chain.path)}
    return found


def outcome_words(value: Optional[bytes]) -> str:
    """A value or RETREAT in a text (VERSION-3.md#verdict-text)."""
    return "retreat" if value is None else f"value {value.hex()}"


@dataclass(frozen=True)
class Judgement:
    """A bundle with the reports on its exhibits, and what is found."""

    bundle: Bundle
    reports: Tuple[Report, ...]
    findings: Tuple[Finding, ...]

    @property
    def told(self) -> Dict[int, ValueLog]:
        """The told logs of the rest."""
        return told_logs(self.bundle, self.reports)  # type: ignore[arg-type, return-value]

    def verdict(self) -> str:
        """The line of the verdict, without its first word (VERSION-3.md#verdict-text)."""
        if self.findings:
            return "no"
        if len(self.bundle.faulty) > self.bundle.header.network.traitors:
            return "explained"
        return f"agreed {outcome_words(next(iter(self.told.values())).outcome())}"

    def lines(self) -> List[str]:
        """The lines of the verdict's text in front of those of the convicted."""
        verdict = self.verdict()
        lines = [f"run {self.bundle.header.run_id.hex()}", f"verdict {verdict}"]
        if verdict == "explained":
            lines += [f"general {general} decides {outcome_words(log.outcome())}" for general, log in sorted(self.told.items())]
        return lines + [finding.spell() for finding in self.findings]


def judge(bundle: Bundle) -> Judgement:
    """The judgement on a bundle (VERSION-3.md#judging)."""
    reports = tuple(Report(exhibit, bundle.header) for exhibit in bundle.exhibits)
    if not bundle.rest:
        return Judgement(bundle, reports, (Finding(11),))
    told: Dict[int, ValueLog] = told_logs(bundle, reports)  # type: ignore[arg-type, assignment]
    found = exhibit_findings(bundle, reports) | _unmatched(told) | _underived(bundle, told) | unjoined(bundle)  # type: ignore[arg-type]
    return Judgement(bundle, reports, tuple(sorted(found)))

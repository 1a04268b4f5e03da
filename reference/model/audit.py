"""Audits: what is found against the logs of the rest, and the text of the verdict."""

from __future__ import annotations

from dataclasses import dataclass
from functools import cached_property
from typing import Dict, List, Optional, Set, Tuple

from .bundle import Bundle, Exhibit
from .faults import Fault
from .follow import departs
from .log import Log, Recv, Send, Sign, read_log
from .network import Header, Path


@dataclass(frozen=True)
class Report:
    """What one exhibit says: how it reads, which signatures verify, where it departs."""

    exhibit: Exhibit
    header: Header

    @cached_property
    def reading(self) -> Tuple[Optional[Log], str]:
        """The log, or nothing and the fault (FORMATS.md#log)."""
        try:
            return read_log(self.exhibit.data, self.header), ""
        except Fault as fault:
            return None, fault.words

    @property
    def log(self) -> Optional[Log]:
        """The log, where the bytes are one."""
        return self.reading[0]

    @property
    def fault(self) -> str:
        """Why the bytes are no log, or nothing."""
        return self.reading[1]

    @property
    def told(self) -> Optional[Log]:
        """The log, where it says that it is of this run and of this general."""
        log = self.log
        if log is None or log.run_id != self.header.run_id or log.general != self.exhibit.general:
            return None
        return log

    @cached_property
    def unverified(self) -> Optional[int]:
        """The first entry with a signature that does not verify (N5 in FORMATS.md#findings)."""
        log = self.log
        assert log is not None
        for index, entry in enumerate(log.entries):
            if isinstance(entry, Sign):
                if not self.header.signed_statement(entry.path[-1], entry.order, entry.path, entry.signature):
                    return index
            if isinstance(entry, Recv) and not entry.chain.verifies(self.header):
                return index
        return None

    @cached_property
    def sealed(self) -> bool:
        """Whether the signature of the head verifies (N6 in FORMATS.md#findings)."""
        return self.log is not None and self.log.sealed(self.header, self.exhibit.general)

    @cached_property
    def departs(self) -> Optional[int]:
        """The entry with which the log departs (N7 in FORMATS.md#findings)."""
        log = self.log
        assert log is not None
        return departs(self.header.network, self.exhibit.general, log.entries)


@dataclass(frozen=True, order=True)
class Finding:
    """A line of what is found; findings stand in the order of their fields (FORMATS.md#findings)."""

    number: int
    generals: Tuple[int, ...] = ()
    place: Tuple[int, ...] = ()
    order: int = 0
    fault: str = ""

    def spell(self) -> str:
        """The line without its line feed (FORMATS.md#findings)."""
        if self.number == 11:
            return "N11"
        if self.number == 10:
            return f"N10 pair {self.generals[0]} {self.generals[1]}"
        if self.number in (8, 9):
            sender, receiver = self.generals
            return f"N{self.number} from {sender} to {receiver} round {self.place[0]} order {self.order}"
        line = f"N{self.number} general {self.generals[0]}"
        if self.number == 3:
            line += f" {self.fault}"
        if self.number in (5, 7):
            line += f" entry {self.place[0]}"
        return line


@dataclass(frozen=True)
class Judgement:
    """A bundle with the reports on its exhibits, and what is found."""

    bundle: Bundle
    reports: Tuple[Report, ...]
    findings: Tuple[Finding, ...]

    def verdict(self) -> str:
        """The line of the verdict, without its first word (FORMATS.md#verdict-text)."""
        if self.findings:
            return "no"
        if len(self.bundle.faulty) > self.bundle.header.network.traitors:
            return "explained"
        return f"agreed {self.decided()[0][1]}"

    def decided(self) -> List[Tuple[int, int]]:
        """Each of the rest with what he decided, where nothing is found."""
        told = told_logs(self.bundle, self.reports)
        return [(general, told[general].end.order) for general in sorted(told)]

    def lines(self) -> List[str]:
        """The lines of the verdict's text in front of those of the convicted (FORMATS.md#verdict-text)."""
        verdict = self.verdict()
        lines = [f"run {self.bundle.header.run_id.hex()}", f"verdict {verdict}"]
        if verdict == "explained":
            lines += [f"general {general} decides {order}" for general, order in self.decided()]
        return lines + [finding.spell() for finding in self.findings]


def told_logs(bundle: Bundle, reports: Tuple[Report, ...]) -> Dict[int, Log]:
    """The one log of each of the rest who has one exhibit, of this run and his (FORMATS.md#findings)."""
    told: Dict[int, Log] = {}
    for general in bundle.rest:
        own = [report for report in reports if report.exhibit.general == general]
        if len(own) == 1 and own[0].told is not None:
            told[general] = own[0].told
    return told


def exhibit_findings(bundle: Bundle, reports: Tuple[Report, ...]) -> Set[Finding]:
    """N1 to N7 (FORMATS.md#findings)."""
    found: Set[Finding] = set()
    for general in bundle.rest:
        own = [report for report in reports if report.exhibit.general == general]
        if not own:
            found.add(Finding(1, (general,)))
        if len(own) > 1:
            found.add(Finding(2, (general,)))
        for report in own:
            found |= _report_findings(general, report)
    return found


def _report_findings(general: int, report: Report) -> Set[Finding]:
    """N3 to N7 of one exhibit (FORMATS.md#findings)."""
    if report.log is None:
        numbers = tuple(int(word[1:]) for word in report.fault.split())
        return {Finding(3, (general,), numbers, fault=report.fault)}
    if report.told is None:
        return {Finding(4, (general,))}
    found: Set[Finding] = set()
    if report.unverified is not None:
        found.add(Finding(5, (general,), (report.unverified,)))
    if not report.sealed:
        found.add(Finding(6, (general,)))
    if report.departs is not None:
        found.add(Finding(7, (general,), (report.departs,)))
    return found


def _sent(log: Log) -> Dict[Tuple[int, int, int], Path]:
    """The messages that a log says were sent: receiver, round and order, with the path."""
    return {(entry.to, len(entry.path), entry.order): entry.path
            for entry in log.entries if isinstance(entry, Send)}


def _received(log: Log) -> Dict[Tuple[int, int, int], Path]:
    """The messages that a log says were received: sender, round and order, with the path."""
    return {(entry.sender, len(entry.chain.path), entry.chain.order): entry.chain.path
            for entry in log.entries if isinstance(entry, Recv)}


def _unmatched(told: Dict[int, Log]) -> Set[Finding]:
    """N8: messages that only one log has, or both with unequal paths (FORMATS.md#findings)."""
    found: Set[Finding] = set()
    for sender in told:
        for receiver in told:
            sent = {key[1:]: path for key, path in _sent(told[sender]).items() if key[0] == receiver}
            received = {key[1:]: path for key, path in _received(told[receiver]).items() if key[0] == sender}
            for number, order in set(sent) | set(received):
                if sent.get((number, order)) != received.get((number, order)):
                    found.add(Finding(8, (sender, receiver), (number,), order))
    return found


def _derives(bundle: Bundle, sources: Set[Tuple[int, Path]], order: int, path: Path) -> bool:
    """Whether what somebody faulty sent derives from what the rest sent the faulty (FORMATS.md#findings)."""
    ends = [at for at, general in enumerate(path) if general not in bundle.faulty]
    if not ends:
        return True
    front = path[:ends[-1] + 1]
    return any(sent == order and len(source) < len(path) and source[:len(front)] == front
               for sent, source in sources)


def _underived(bundle: Bundle, told: Dict[int, Log]) -> Set[Finding]:
    """N9 (FORMATS.md#findings)."""
    sources = {(key[2], path) for log in told.values() for key, path in _sent(log).items()
               if key[0] in bundle.faulty}
    found: Set[Finding] = set()
    for receiver, log in told.items():
        for (sender, number, order), path in _received(log).items():
            if sender in bundle.faulty and not _derives(bundle, sources, order, path):
                found.add(Finding(9, (sender, receiver), (number,), order))
    return found


def _joins(bundle: Bundle, walk: Path) -> bool:
    """Whether a walk stays inside the rest, along edges, by at most d of them (FORMATS.md#findings)."""
    network = bundle.header.network
    if len(walk) - 1 > network.diameter or any(general in bundle.faulty for general in walk):
        return False
    return all(network.joined(a, b) for a, b in zip(walk, walk[1:]))


def unjoined(bundle: Bundle) -> Set[Finding]:
    """N10 (FORMATS.md#findings)."""
    joined = {(walk[0], walk[-1]) for walk in bundle.walks if _joins(bundle, walk)}
    pairs = [(a, b) for a in bundle.rest for b in bundle.rest if a < b and (a, b) not in joined]
    return {Finding(10, pairs[0])} if pairs else set()


def judge(bundle: Bundle) -> Judgement:
    """The judgement on a bundle (FORMATS.md#findings)."""
    reports = tuple(Report(exhibit, bundle.header) for exhibit in bundle.exhibits)
    if not bundle.rest:
        return Judgement(bundle, reports, (Finding(11),))
    told = told_logs(bundle, reports)
    found = exhibit_findings(bundle, reports) | _unmatched(told)
    found |= _underived(bundle, told) | unjoined(bundle)
    return Judgement(bundle, reports, tuple(sorted(found)))

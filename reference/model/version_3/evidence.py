"""Evidence of version 3, and who is convicted (VERSION-3.md#evidence)."""

from __future__ import annotations

from dataclasses import dataclass
from itertools import combinations
from typing import List, Optional, Sequence, Tuple, Union

from ..answering import collision
from ..faults import Cursor, Fault
from ..follow import COMMANDER, departs
from ..log import Recv, Sign, read_path
from ..network import Path
from .audit import Judgement
from .header import RUN_LEAVES, VALUE_BYTES, Header, read_header
from .log import NAMES, ValueLog, read_log

MARK = b"SME3"


@dataclass(frozen=True)
class Statement:
    """The text of an order, a value and a path."""

    order: int
    value: bytes
    path: Path

    def spell(self) -> bytes:
        """The bytes of the text."""
        return b"\x01" + bytes([self.order]) + self.value + bytes([len(self.path)]) + bytes(self.path)

    def signed_as(self, header: Header, general: int) -> bytes:
        """The bytes that were signed."""
        return header.statement(self.order, self.value, self.path)

    def leaves(self, header: Header) -> Tuple[int, ...]:
        """The leaves under which it may be signed."""
        return (header.leaf(self.order),)


@dataclass(frozen=True)
class Head:
    """The text of the head of a log of the accused."""

    count: int
    link: bytes

    def spell(self) -> bytes:
        """The bytes of the text."""
        return b"\x02" + self.count.to_bytes(8, "big") + self.link

    def signed_as(self, header: Header, general: int) -> bytes:
        """The bytes that were signed."""
        return header.head(general, self.count, self.link)

    def leaves(self, header: Header) -> Tuple[int, ...]:
        """The leaves under which it may be signed."""
        return (header.leaf(None),)


@dataclass(frozen=True)
class Other:
    """Any other bytes that the accused signed under a leaf of the run."""

    data: bytes

    def spell(self) -> bytes:
        """The bytes of the text."""
        return b"\x03" + len(self.data).to_bytes(2, "big") + self.data

    def signed_as(self, header: Header, general: int) -> bytes:
        """The bytes that were signed."""
        return self.data

    def leaves(self, header: Header) -> Tuple[int, ...]:
        """The leaves under which it may be signed."""
        return tuple(RUN_LEAVES * header.run + at for at in range(RUN_LEAVES))


Text = Union[Statement, Head, Other]


@dataclass(frozen=True)
class Signed:
    """A text with a signature."""

    text: Text
    signature: bytes

    @property
    def leaf(self) -> int:
        """The leaf that the signature names."""
        return int.from_bytes(self.signature[:4], "big")

    def spell(self) -> bytes:
        """The text and the signature."""
        return self.text.spell() + self.signature

    def verifies(self, header: Header, general: int) -> bool:
        """Whether the text is a general's and the signature verifies."""
        if isinstance(self.text, Statement) and self.text.path[-1] != general:
            return False
        text = self.text.signed_as(header, general)
        return self.leaf in self.text.leaves(header) and header.signed(general, text, self.signature, self.leaf)


@dataclass(frozen=True)
class Two:
    """Kind 01 or 02: two texts that no follower signs both."""

    kind: int
    first: Signed
    second: Signed

    def spell(self) -> bytes:
        """The bytes of the claim."""
        return self.first.spell() + self.second.spell()

    def holds(self, header: Header, accused: int) -> bool:
        """Whether the texts contradict each other, and both are the accused's."""
        rival = rivals(header, accused, self.first, self.second) if self.kind == 1 else two_names(accused, self.first, self.second)
        return rival and self.first.verifies(header, accused) and self.second.verifies(header, accused)


def rivals(header: Header, accused: int, first: Signed, second: Signed) -> bool:
    """Whether two texts are different, under one leaf."""
    return first.leaf == second.leaf and first.text.signed_as(header, accused) != second.text.signed_as(header, accused)


def two_names(accused: int, first: Signed, second: Signed) -> bool:
    """Whether two texts are statements of order 1 and of order 2, of one value or of the commander."""
    a, b = first.text, second.text
    if not isinstance(a, Statement) or not isinstance(b, Statement):
        return False
    return (a.order, b.order) == NAMES and (a.value == b.value or accused == COMMANDER)


def sealed_log(data: bytes, header: Header, accused: int) -> Optional[ValueLog]:
    """A log of this run and of the accused whose head verifies, if the bytes are one."""
    try:
        log = read_log(data, header)
    except Fault:
        return None
    said = (log.run_id, log.general) == (header.run_id, accused)
    return log if said and log.sealed(header, accused) else None  # type: ignore[arg-type]


def has_statement(log: ValueLog, text: Statement) -> bool:
    """Whether a SIGN of a log has the order and the path, of an order whose value in the log is the statement's."""
    signs = [entry for entry in log.entries if isinstance(entry, Sign)]
    return any((it.order, it.path) == (text.order, text.path) for it in signs) and log.stated(text.order) == text.value


@dataclass(frozen=True)
class Missing:
    """Kind 03: a sealed log without a statement that was signed."""

    log: bytes
    signed: Signed
    kind = 3

    def spell(self) -> bytes:
        """The bytes of the claim."""
        return len(self.log).to_bytes(4, "big") + self.log + self.signed.spell()

    def holds(self, header: Header, accused: int) -> bool:
        """Whether the accused sealed the log and signed the statement, and the log lacks it."""
        log, text = sealed_log(self.log, header, accused), self.signed.text
        lacks = log is not None and isinstance(text, Statement) and not has_statement(log, text)
        return lacks and self.signed.verifies(header, accused)


@dataclass(frozen=True)
class Departing:
    """Kind 04: a sealed log that departs at an entry."""

    log: bytes
    entry: int
    kind = 4

    def spell(self) -> bytes:
        """The bytes of the claim."""
        return len(self.log).to_bytes(4, "big") + self.log + self.entry.to_bytes(4, "big")

    def holds(self, header: Header, accused: int) -> bool:
        """Whether the accused sealed the log, and it departs at the entry."""
        log = sealed_log(self.log, header, accused)
        return log is not None and departs(header.network, accused, log.entries) == self.entry


Claim = Union[Two, Missing, Departing]


@dataclass(frozen=True)
class Evidence:
    """A general that is accused in a run, and a claim."""

    header: Header
    accused: int
    claim: Claim

    def spell(self) -> bytes:
        """The bytes of the evidence."""
        return MARK + self.header.spell() + bytes([self.accused, self.claim.kind]) + self.claim.spell()

    def holds(self) -> bool:
        """Whether the claim holds."""
        return self.claim.holds(self.header, self.accused)


def _read_statement(cursor: Cursor, header: Header, orders: Sequence[int]) -> Statement:
    """What stands behind the first byte of a statement, of one of these orders, or V4."""
    order = cursor.number(1)
    if order not in orders:
        raise Fault("V4")
    value = cursor.take(VALUE_BYTES)
    try:
        return Statement(order, value, read_path(cursor, header.network))
    except Fault as inner:
        raise (Fault("V4") if inner.words == "L3" else inner) from None


def _read_signed(cursor: Cursor, header: Header, kinds: Sequence[int], orders: Sequence[int] = NAMES) -> Signed:
    """A text whose first byte is one of these, and a signature."""
    kind = cursor.number(1)
    if kind not in kinds:
        raise Fault("V4")
    text: Text
    if kind == 1:
        text = _read_statement(cursor, header, orders)
    elif kind == 2:
        text = Head(cursor.number(8), cursor.take(32))
    else:
        text = Other(cursor.take(cursor.number(2)))
    return Signed(text, cursor.take(header.signature_length))


def _read_claim(cursor: Cursor, header: Header, kind: int) -> Claim:
    """The claim in front of bytes."""
    if kind == 1:
        first = _read_signed(cursor, header, (1, 2, 3))
        return Two(1, first, _read_signed(cursor, header, (1, 2, 3)))
    if kind == 2:
        first = _read_signed(cursor, header, (1,), (1,))
        return Two(2, first, _read_signed(cursor, header, (1,), (2,)))
    log = cursor.take(cursor.number(4))
    return Missing(log, _read_signed(cursor, header, (1,))) if kind == 3 else Departing(log, cursor.number(4))


def read_evidence(data: bytes) -> Evidence:
    """The evidence that bytes are, or the first of V1 to V5."""
    cursor = Cursor(data, "V1")
    if cursor.take(4) != MARK:
        raise Fault("V2")
    try:
        header = read_header(cursor)
    except Fault as inner:
        raise (Fault("V3 " + inner.words) if inner.words[0] == "H" else inner) from None
    accused = cursor.number(1)
    if accused >= header.network.generals:
        raise Fault("V4")
    kind = cursor.number(1)
    if not 1 <= kind <= 4:
        raise Fault("V4")
    claim = _read_claim(cursor, header, kind)
    if not cursor.at_end():
        raise Fault("V5")
    return Evidence(header, accused, claim)


# Who is convicted.


def _texts_of(log: ValueLog, general: int) -> List[Signed]:
    """The statements of a general in a log, entry by entry."""
    found = []
    for entry in log.entries:
        if isinstance(entry, Sign) and entry.path[-1] == general:
            found.append(Signed(Statement(entry.order, log.stated(entry.order), entry.path), entry.signature))
        if isinstance(entry, Recv) and general in entry.chain.path:
            chain, at = entry.chain, entry.chain.path.index(general)
            signer = chain.signers[at]  # type: ignore[attr-defined]
            found.append(Signed(Statement(signer.order, log.stated(chain.order), chain.path[:at + 1]), signer.signature))
    return found


def signed_texts(judgement: Judgement, general: int) -> List[Signed]:
    """The texts that the exhibits show as signed by a general, in the order of the exhibits (FORMATS.md#verdict-text)."""
    shown: List[Signed] = []
    for report in judgement.reports:
        log = report.told
        if log is not None:
            shown += _texts_of(log, general)
            shown += [Signed(Head(len(log.entries), log.last_link()), log.signature)] if report.exhibit.general == general else []
    return [signed for signed in shown if signed.verifies(judgement.bundle.header, general)]


def _pair(judgement: Judgement, general: int, shown: Sequence[Signed]) -> Optional[Claim]:
    """The first pair of texts that is a contradiction of kind 1, or else of kind 2."""
    header = judgement.bundle.header
    for first, second in combinations(shown, 2):
        if rivals(header, general, first, second):
            return Two(1, first, second)
    for first, second in combinations(shown, 2):
        for one, two in ((first, second), (second, first)):
            if two_names(general, one, two):
                return Two(2, one, two)
    return None


def contradiction(judgement: Judgement, general: int) -> Optional[Claim]:
    """The claim of the least kind that the exhibits hold against a general (FORMATS.md#verdict-text)."""
    shown = signed_texts(judgement, general)
    pair = _pair(judgement, general, shown)
    if pair is not None:
        return pair
    sealed = [it for it in judgement.reports if it.exhibit.general == general and it.told is not None and it.sealed]
    for report in sealed:
        for signed in shown:
            if isinstance(signed.text, Statement) and report.told and not has_statement(report.told, signed.text):
                return Missing(report.exhibit.data, signed)
    return next((Departing(it.exhibit.data, it.departs) for it in sealed if it.departs is not None), None)


def verdict_text(judgement: Judgement) -> str:
    """The text of the verdict on a bundle (VERSION-3.md#verdict-text)."""
    claims = {general: contradiction(judgement, general) for general in range(judgement.bundle.header.network.generals)}
    lines = [*judgement.lines(), *(f"convicted {general} by K{claim.kind}" for general, claim in claims.items() if claim)]
    return "".join(line + "\n" for line in [*lines, "end"])


def accuse(judgement: Judgement, general: int) -> Optional[Evidence]:
    """The evidence that the exhibits hold against a general."""
    claim = contradiction(judgement, general)
    return None if claim is None else Evidence(judgement.bundle.header, general, claim)


# Answers.


def answer(evidence: Evidence, own: bytes) -> str:
    """The line that answers evidence by the own log of the accused (VERSION-3.md#evidence)."""
    header, accused, claim = evidence.header, evidence.accused, evidence.claim
    log = sealed_log(own, header, accused)
    if not evidence.holds() or log is None or departs(header.network, accused, log.entries) is not None:
        return "no answer"
    for text in _claimed(header, accused, claim):
        if not _log_has(header, accused, log, text):
            return _forged_words(text)
    assert isinstance(claim, (Missing, Departing))
    first, second = collision(read_log(claim.log, header), log)
    return f"collision {first.hex()} {second.hex()}"


def _claimed(header: Header, accused: int, claim: Claim) -> List[Text]:
    """The texts that a claim says the accused signed, in the order in which an answer looks at them."""
    if isinstance(claim, Two):
        return [claim.first.text, claim.second.text]
    log = read_log(claim.log, header)
    head = Head(len(log.entries), log.last_link())
    return [claim.signed.text, head] if isinstance(claim, Missing) else [head]


def _log_has(header: Header, accused: int, log: ValueLog, text: Text) -> bool:
    """Whether the own log of the accused has a text."""
    if isinstance(text, Statement):
        return has_statement(log, text)
    own: List[Text] = [Head(len(log.entries), log.last_link()), *(it.text for it in _texts_of(log, accused))]
    return text.signed_as(header, accused) in [it.signed_as(header, accused) for it in own]


def _forged_words(text: Text) -> str:
    """The line that names a text that somebody else signed."""
    if isinstance(text, Statement):
        path = ",".join(map(str, text.path))
        return f"forged statement order {text.order} value {text.value.hex()} path {path}"
    if isinstance(text, Head):
        return f"forged head entries {text.count} link {text.link.hex()}"
    return f"forged text {text.data.hex() or '-'}"

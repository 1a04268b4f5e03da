"""Evidence that is answered by a log of the accused."""

from __future__ import annotations

from typing import List, Optional, Tuple, Union

from . import keys
from .evidence import (Across, Departing, Evidence, Head, Missing, Signed, Statement, Text, TwoOrders, TwoTexts, misses,
                       read_evidence)
from .faults import Fault
from .follow import departs
from .log import Log, first_link, link_text, read_log
from .network import Header

# Two strings of bytes that differ and have one hash.
Collision = Tuple[bytes, bytes]


def is_own(log: Log, header: Header, general: int) -> bool:
    """Whether a log is an own log of a general in a run (FORMATS.md#answer-text)."""
    of_run = log.run_id == header.run_id and log.general == general and log.sealed(header, general)
    return of_run and departs(header.network, general, log.entries) is None


def own_log(data: bytes, header: Header, general: int) -> Optional[Log]:
    """The own log of a general in a run that bytes are; none for other bytes (FORMATS.md#answer-text)."""
    try:
        log = read_log(data, header)
    except Fault:
        return None
    return log if is_own(log, header, general) else None


def has_text(log: Log, text: Text) -> bool:
    """Whether a log has a statement as a SIGN, or a head as its own (FORMATS.md#answer-text)."""
    if isinstance(text, Head):
        return text == Head(len(log.entries), log.last_link())
    return not misses(log, text)


def head_in(data: bytes, header: Header) -> Signed:
    """The head of a log with its signature."""
    log = read_log(data, header)
    return Signed(Head(len(log.entries), log.last_link()), log.signature)


def texts_of(told: Evidence) -> List[Signed]:
    """The texts of a claim of one run, in the order in which they are looked for in a log (FORMATS.md#answer-text)."""
    claim = told.claim
    if isinstance(claim, (TwoTexts, TwoOrders)):
        return [claim.first, claim.second]
    if isinstance(claim, Missing):
        return [claim.signed, head_in(claim.log, told.header)]
    assert isinstance(claim, Departing)
    return [head_in(claim.log, told.header)]


def collision(one: Log, other: Log) -> Collision:
    """The two strings of the first entries whose links are equal and whose hashed bytes differ (FORMATS.md#answer-text)."""
    link = second_link = first_link(one.run_id, one.general)
    for entry, second_entry in zip(one.entries, other.entries):
        text, second_text = link_text(link, entry), link_text(second_link, second_entry)
        link, second_link = keys.digest(text), keys.digest(second_text)
        if link == second_link and text != second_text:
            return text, second_text
    raise ValueError("the logs have no two links with one hash")


def refuted(told: Evidence, own: Log) -> Union[Signed, Collision]:
    """The text of evidence that a log of the accused lacks, or two strings with one hash (FORMATS.md#answer-text)."""
    if isinstance(told.claim, Across):
        return told.claim.second
    missing = [signed for signed in texts_of(told) if not has_text(own, signed.text)]
    if missing:
        return missing[0]
    assert isinstance(told.claim, (Missing, Departing))
    return collision(read_log(told.claim.log, told.header), own)


def _said(text: Text) -> str:
    """A text in the line of an answer (FORMATS.md#answer-text)."""
    if isinstance(text, Statement):
        return "statement order {} path {}".format(text.order, ",".join(map(str, text.path)))
    return f"head entries {text.count} link {text.link.hex()}"


def answer_line(evidence: bytes, data: bytes) -> Optional[bytes]:
    """The line that answers evidence by a log; none where there is no answer (FORMATS.md#answer-text)."""
    told = read_evidence(evidence)
    log = read_log(data, told.header)
    if not told.holds() or not is_own(log, told.header, told.accused):
        return None
    found = refuted(told, log)
    said = f"forged {_said(found.text)}" if isinstance(found, Signed) else f"collision {found[0].hex()} {found[1].hex()}"
    return said.encode("ascii") + b"\n"

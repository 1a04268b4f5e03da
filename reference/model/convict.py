"""Who is convicted: the contradictions that the exhibits hold."""

from __future__ import annotations

from typing import List, Optional, Sequence, Tuple

from .audit import Judgement
from .evidence import (Across, Claim, Departing, Evidence, Head, Missing, Signed, Statement, TwoOrders,
                       TwoTexts, misses)
from .follow import COMMANDER
from .log import Log, Recv, Sign


def signed_texts(judgement: Judgement, general: int) -> List[Signed]:
    """The texts that the exhibits show as signed by a general, in the order of the exhibits.

    FORMATS.md#verdict-text. What is shown counts where its signature verifies.
    """
    header = judgement.bundle.header
    shown: List[Signed] = []
    for report in judgement.reports:
        log = report.told
        if log is None:
            continue
        for entry in log.entries:
            if isinstance(entry, Sign) and entry.path[-1] == general:
                shown.append(Signed(Statement(entry.order, entry.path), entry.signature))
            if isinstance(entry, Recv) and general in entry.chain.path:
                at = entry.chain.path.index(general)
                text = Statement(entry.chain.order, entry.chain.path[:at + 1])
                shown.append(Signed(text, entry.chain.signatures[at]))
        if report.exhibit.general == general:
            shown.append(Signed(Head(len(log.entries), log.last_link()), log.signature))
    return [signed for signed in shown if signed.verifies(header, general)]


def _sealed(judgement: Judgement, general: int) -> List[Tuple[bytes, Log, Optional[int]]]:
    """The logs that a general sealed, with the entry at which each departs (FORMATS.md#verdict-text)."""
    return [(report.exhibit.data, report.told, report.departs) for report in judgement.reports
            if report.exhibit.general == general and report.told is not None and report.sealed]


def _two(shown: Sequence[Signed], general: int, kind: int) -> Optional[Claim]:
    """The first pair of texts that is a contradiction of kind 1 or 2 (FORMATS.md#verdict-text)."""
    for at, first in enumerate(shown):
        for second in shown[at + 1:]:
            a, b = first.text, second.text
            if a == b:
                continue
            if kind == 1 and isinstance(a, Head) and isinstance(b, Head):
                return TwoTexts(first, second)
            if isinstance(a, Head) or isinstance(b, Head):
                continue
            if kind == 1 and a.order == b.order:
                return TwoTexts(first, second)
            if kind == 2 and general == COMMANDER and a.path == b.path == (COMMANDER,):
                return TwoOrders(first, second)
    return None


def contradiction(judgement: Judgement, general: int) -> Optional[Claim]:
    """The claim of the least kind that the exhibits hold against a general (FORMATS.md#verdict-text)."""
    shown = signed_texts(judgement, general)
    for kind in (1, 2):
        pair = _two(shown, general, kind)
        if pair is not None:
            return pair
    sealed = _sealed(judgement, general)
    for data, log, _ in sealed:
        for signed in shown:
            if isinstance(signed.text, Statement) and misses(log, signed.text):
                return Missing(data, signed)
    for data, _, entry in sealed:
        if entry is not None:
            return Departing(data, entry)
    return None


def convicted(judgement: Judgement) -> List[Tuple[int, Claim]]:
    """Each general against whom the exhibits hold a contradiction, ascending (FORMATS.md#verdict-text)."""
    found = []
    for general in range(judgement.bundle.header.network.generals):
        claim = contradiction(judgement, general)
        if claim is not None:
            found.append((general, claim))
    return found


def verdict_text(judgement: Judgement) -> str:
    """The text of the verdict on a bundle (FORMATS.md#verdict-text)."""
    lines = judgement.lines()
    lines += [f"convicted {general} by K{claim.kind}" for general, claim in convicted(judgement)]
    return "".join(line + "\n" for line in lines + ["end"])


def rivals(judgements: Sequence[Judgement], general: int) -> Optional[Tuple[int, int, Across]]:
    """The first two texts of a general under one leaf in two runs (FORMATS.md#verdict-text)."""
    headers = [judgement.bundle.header for judgement in judgements]
    shown = [signed_texts(judgement, general) for judgement in judgements]
    for one, header in enumerate(headers):
        for signed in shown[one]:
            for two in range(one + 1, len(headers)):
                for second in shown[two]:
                    claim = Across(headers[two], signed, second)
                    if header.slot == headers[two].slot and claim.holds(header, general):
                        return one, two, claim
    return None


def convicted_across(judgements: Sequence[Judgement]) -> List[Tuple[int, int, int]]:
    """Each who is convicted across two runs, ascending, with the runs (FORMATS.md#verdict-text)."""
    found = []
    for general in range(judgements[0].bundle.header.network.generals):
        pair = rivals(judgements, general)
        if pair is not None:
            found.append((general, pair[0], pair[1]))
    return found


def campaign_text(judgements: Sequence[Judgement]) -> str:
    """The text of the verdict on a campaign (FORMATS.md#verdict-text)."""
    across = [f"convicted {general} by K1 across {one} {two}\n"
              for general, one, two in convicted_across(judgements)]
    texts = [verdict_text(judgement) for judgement in judgements]
    return "".join([f"campaign {len(judgements)}\n"] + texts + across + ["end campaign\n"])


def accuse(judgements: Sequence[Judgement], general: int) -> Optional[Evidence]:
    """The evidence against a general: of the first run that holds any, else across two runs.

    COMMANDS.md#accuse---general-g---run-runid---receipts.
    """
    if general >= judgements[0].bundle.header.network.generals:
        return None
    for judgement in judgements:
        claim = contradiction(judgement, general)
        if claim is not None:
            return Evidence(judgement.bundle.header, general, claim)
    pair = rivals(judgements, general)
    return None if pair is None else Evidence(judgements[pair[0]].bundle.header, general, pair[2])

"""Scenario texts and campaign texts."""

from __future__ import annotations

from dataclasses import dataclass
from typing import Dict, List, Optional, Tuple

from .faults import Fault
from .network import Network, make_network
from .script import HEX_DIGITS, Line, read_number, read_script_line

LONGEST_LINE = 600_000
ALLOWED = bytes(range(32, 127))


@dataclass(frozen=True)
class Scenario:
    """A network, an order, and for a scenario with signatures what else its text says.

    FORMATS.md#scenario-text; `seed_line` is the line behind that of the order.
    """

    network: Network
    order: int
    seed: Optional[bytes]
    slot: Optional[int]
    scripts: Dict[int, Tuple[Line, ...]]
    seed_line: int

    @property
    def version(self) -> int:
        """With a slot a run is of version 2 (FORMATS.md#scenario-text)."""
        return 1 if self.slot is None else 2


class Lines:
    """A text that is read line by line."""

    def __init__(self, text: bytes) -> None:
        self.text = text
        self.place = 0
        self.line = 0

    def fault(self, words: str) -> Fault:
        """A fault at the line that was read last."""
        return Fault(f"{words} line {self.line}")

    def next(self) -> List[bytes]:
        """The fields of the next line, or P12, P11 or P1 (FORMATS.md#scenario-text)."""
        self.line += 1
        end = self.text.find(b"\n", self.place)
        line = self.text[self.place:] if end < 0 else self.text[self.place:end]
        if line.translate(None, ALLOWED):
            raise self.fault("P12")
        if len(line) > LONGEST_LINE:
            raise self.fault("P11")
        if end < 0:
            raise self.fault("P1")
        self.place = end + 1
        return line.split(b" ")

    def word(self, word: bytes, count: int) -> List[bytes]:
        """The fields of the next line, which has this word and number of fields, or P2."""
        return self.worded(self.next(), word, count)

    def worded(self, fields: List[bytes], word: bytes, count: int) -> List[bytes]:
        """The fields, where they have this word and number, or P2."""
        if fields[0] != word or len(fields) != count:
            raise self.fault("P2")
        return fields

    def number(self, field: bytes) -> int:
        """The number that a field spells, or P3."""
        number = read_number(field)
        if number is None:
            raise self.fault("P3")
        return number

    def ended(self) -> None:
        """Nothing is left of the text, or P10."""
        if self.place < len(self.text):
            self.line += 1
            raise self.fault("P10")


class First:
    """What the texts of a campaign have in common with the first (FORMATS.md#campaign-text)."""

    def __init__(self) -> None:
        self.generals: Optional[int] = None
        self.seed: Optional[bytes] = None
        self.slot: Optional[int] = None

    def same_generals(self, lines: Lines, generals: int) -> None:
        """As many generals as in the first text, or P15."""
        if self.generals not in (None, generals):
            raise lines.fault("P15")
        self.generals = generals

    def same_seed(self, lines: Lines, seed: bytes) -> None:
        """The seed of the first text, or P15."""
        if self.seed not in (None, seed):
            raise lines.fault("P15")
        self.seed = seed

    def later_slot(self, lines: Lines, slot: int) -> None:
        """A slot greater than that of the text before, or P15."""
        if self.slot is not None and slot <= self.slot:
            raise lines.fault("P15")
        self.slot = slot


def read_network(lines: Lines, first: Optional[First]) -> Network:
    """The lines from `generals` to `choice` (FORMATS.md#scenario-text)."""
    generals = lines.number(lines.word(b"generals", 2)[1])
    if first is not None:
        first.same_generals(lines, generals)
    edges = []
    fields = lines.next()
    while fields[0] == b"edge":
        lines.worded(fields, b"edge", 3)
        edges.append((lines.number(fields[1]), lines.number(fields[2])))
        fields = lines.next()
    traitors = lines.number(lines.worded(fields, b"traitors", 2)[1])
    diameter = lines.number(lines.word(b"diameter", 2)[1])
    orders = lines.number(lines.word(b"orders", 2)[1])
    choice = lines.number(lines.word(b"choice", 2)[1])
    try:
        return make_network((generals, traitors, diameter, orders, choice), edges, False)
    except Fault as inner:
        raise lines.fault("P4 " + inner.words) from None


def read_digits(lines: Lines, field: bytes) -> bytes:
    """The field HEX of a line `seed` or `root`, or P6."""
    if len(field) != 64 or any(byte not in HEX_DIGITS for byte in field):
        raise lines.fault("P6")
    return bytes.fromhex(field.decode("ascii"))


def _read_slot(lines: Lines, field: bytes) -> int:
    """The field U of a line `slot`, or P3 or P13."""
    slot = lines.number(field)
    if slot > 3:
        raise lines.fault("P13")
    return slot


def _read_scripts(lines: Lines, fields: List[bytes], network: Network) -> Dict[int, Tuple[Line, ...]]:
    """The blocks of scripts up to the line `end` (FORMATS.md#scenario-text)."""
    scripts: Dict[int, List[Line]] = {}
    places: List[Tuple[int, Line]] = []
    general = -1
    while fields != [b"end"]:
        if fields[0] == b"script":
            lines.worded(fields, b"script", 2)
            number = lines.number(fields[1])
            if number >= network.generals or number <= general:
                raise lines.fault("P8")
            general = number
            scripts[general] = []
        elif fields[0] == b"end" or general < 0:
            raise lines.fault("P2")
        else:
            try:
                line = read_script_line(fields, general, network)
            except Fault as inner:
                raise lines.fault("P9 " + inner.words) from None
            scripts[general].append(line)
            places.append((lines.line, line))
        fields = lines.next()
    for number, line in places:
        if any(signer not in scripts for signer in line.path):
            raise Fault(f"P9 S6 line {number}")
    return {number: tuple(block) for number, block in scripts.items()}


def _read_text(lines: Lines, first: Optional[First]) -> Scenario:
    """A scenario text up to its line `end`; one of a campaign has a seed and a slot."""
    network = read_network(lines, first)
    order = lines.number(lines.word(b"order", 2)[1])
    if order >= network.orders:
        raise lines.fault("P5")
    fields = lines.next()
    seed_line = lines.line
    seed = slot = None
    if first is not None or fields[0] == b"seed":
        seed = read_digits(lines, lines.worded(fields, b"seed", 2)[1])
        if first is not None:
            first.same_seed(lines, seed)
        fields = lines.next()
        if first is not None or fields[0] == b"slot":
            slot = _read_slot(lines, lines.worded(fields, b"slot", 2)[1])
            if first is not None:
                first.later_slot(lines, slot)
            fields = lines.next()
    elif fields[0] == b"script" and len(fields) == 2:
        raise lines.fault("P7")
    elif fields != [b"end"]:
        raise lines.fault("P2")
    scripts = _read_scripts(lines, fields, network)
    return Scenario(network, order, seed, slot, scripts, seed_line)


def read_scenario(text: bytes, signed: bool) -> Scenario:
    """The scenario that a text is, or its first fault (FORMATS.md#scenario-text).

    Where it has to be a scenario with signatures, a text without a seed is P6.
    """
    lines = Lines(text)
    scenario = _read_text(lines, None)
    lines.ended()
    if signed and scenario.seed is None:
        raise Fault(f"P6 line {scenario.seed_line}")
    return scenario


def read_campaign_text(text: bytes) -> List[Scenario]:
    """The scenarios of the text of a campaign, or its first fault (FORMATS.md#campaign-text)."""
    lines = Lines(text)
    count = lines.number(lines.word(b"campaign", 2)[1])
    if not 1 <= count <= 4:
        raise lines.fault("P14")
    first = First()
    scenarios = [_read_text(lines, first) for _ in range(count)]
    lines.ended()
    return scenarios

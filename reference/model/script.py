"""Script lines: what one traitor does."""

from __future__ import annotations

from dataclasses import dataclass
from typing import List, Optional

from .faults import Fault
from .network import Network, Path

FIELDS = {b"make": 5, b"pass": 6, b"bend": 5, b"raw": 4, b"hide": 4, b"twohead": 1}
HEX_DIGITS = b"0123456789abcdefABCDEF"


@dataclass(frozen=True)
class Line:
    """A line of a script; what its word does not take is empty (FORMATS.md#script-lines)."""

    word: str
    round: int = 0
    to: Optional[int] = None
    sender: Optional[int] = None
    order: int = 0
    path: Path = ()
    raw: bytes = b""


def read_number(field: bytes) -> Optional[int]:
    """The number that a field spells, or nothing (FORMATS.md#scenario-text)."""
    if not field or len(field) > 3 or any(byte not in b"0123456789" for byte in field):
        return None
    if field[:1] == b"0" and field != b"0":
        return None
    number = int(field)
    return number if number <= 255 else None


def _number(field: bytes) -> int:
    """The number of a script's field, or S2."""
    number = read_number(field)
    if number is None:
        raise Fault("S2")
    return number


def _round(field: bytes, least: int, network: Network) -> int:
    """The field R."""
    number = _number(field)
    if not least <= number <= network.rounds:
        raise Fault("S3")
    return number


def _neighbour(field: bytes, general: int, network: Network) -> int:
    """The field TO or FROM."""
    number = _number(field)
    if number not in network.neighbours(general):
        raise Fault("S4")
    return number


def _order(field: bytes, network: Network) -> int:
    """The field V."""
    number = _number(field)
    if number >= network.orders:
        raise Fault("S5")
    return number


def _numbers(field: bytes, network: Network, from_commander: bool) -> Path:
    """The numbers of the field PATH, one by one.

    General 0 is the first number of a path that the commander begins, and no other number is 0.
    """
    path: Path = ()
    for part in field.split(b","):
        number = _number(part)
        if number >= network.generals or number in path:
            raise Fault("S6")
        if (number == 0) != (from_commander and not path):
            raise Fault("S6")
        path += (number,)
    return path


def _hex(field: bytes) -> bytes:
    """The field HEX."""
    if not field or len(field) % 2 or any(byte not in HEX_DIGITS for byte in field):
        raise Fault("S2")
    return bytes.fromhex(field.decode("ascii"))


def _make(fields: List[bytes], general: int, network: Network) -> Line:
    """A line `make R TO V PATH`."""
    number = _round(fields[1], 1, network)
    to = _neighbour(fields[2], general, network)
    order = _order(fields[3], network)
    path = _numbers(fields[4], network, True)
    if path[-1] != general or len(path) != number:
        raise Fault("S6")
    return Line("make", number, to=to, order=order, path=path)


def _pass(fields: List[bytes], general: int, network: Network) -> Line:
    """A line `pass R TO FROM V PATH`."""
    number = _round(fields[1], 1, network)
    to = _neighbour(fields[2], general, network)
    sender = _neighbour(fields[3], general, network)
    order = _order(fields[4], network)
    path = _numbers(fields[5], network, False)
    if path[-1] != general or len(path) >= number:
        raise Fault("S6")
    return Line("pass", number, to=to, sender=sender, order=order, path=path)


def _bend(fields: List[bytes], general: int, network: Network) -> Line:
    """A line `bend R TO FROM V`."""
    number = _round(fields[1], 2, network)
    to = _neighbour(fields[2], general, network)
    sender = _neighbour(fields[3], general, network)
    return Line("bend", number, to=to, sender=sender, order=_order(fields[4], network), path=(general,))


def _raw(fields: List[bytes], general: int, network: Network) -> Line:
    """A line `raw R TO HEX`."""
    number = _round(fields[1], 1, network)
    to = _neighbour(fields[2], general, network)
    return Line("raw", number, to=to, raw=_hex(fields[3]))


def _hide(fields: List[bytes], general: int, network: Network) -> Line:
    """A line `hide R FROM V`."""
    number = _round(fields[1], 1, network)
    sender = _neighbour(fields[2], general, network)
    return Line("hide", number, sender=sender, order=_order(fields[3], network))


def _twohead(_fields: List[bytes], _general: int, _network: Network) -> Line:
    """A line `twohead`."""
    return Line("twohead")


READERS = {b"make": _make, b"pass": _pass, b"bend": _bend, b"raw": _raw, b"hide": _hide, b"twohead": _twohead}


def read_script_line(fields: List[bytes], general: int, network: Network) -> Line:
    """The line that fields are, or the first of S1 to S6 (FORMATS.md#script-lines)."""
    if FIELDS.get(fields[0]) != len(fields):
        raise Fault("S1")
    return READERS[fields[0]](fields, general, network)

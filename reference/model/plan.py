"""Whether the network of a header carries the run that is planned, and how long that run gets."""

from __future__ import annotations

from itertools import combinations
from typing import Iterator, List, Optional, Tuple

from .bundle import CAMPAIGN_MARK, read_bundle, read_campaign
from .network import Header, Network
from .prepare import header_of_text, whole_header

GREATEST_DIAMETER = 15
EMPTY_FRAME = 41
BUNDLE_MARKS = (b"SMB1", b"SMB2")
Set = Tuple[int, ...]
Cut = Tuple[Set, int, int]


def planned_header(given: bytes, slot: Optional[int]) -> Header:
    """The header that an input has, by its first bytes, or its first fault (FORMATS.md#plan-text)."""
    if given.startswith(CAMPAIGN_MARK):
        return read_campaign(given)[0].header
    if given.startswith(BUNDLE_MARKS):
        return read_bundle(given).header
    return whole_header(given) if given[:1] in (b"\1", b"\2") else header_of_text(given, slot)


def distances(network: Network, absent: Set, source: int) -> List[Optional[int]]:
    """The edges of the shortest walk from a general to each other one through those that are not absent."""
    found: List[Optional[int]] = [None] * network.generals
    found[source] = 0
    reached = [source]
    for general in reached:
        for other in network.neighbours(general):
            if found[other] is None and other not in absent:
                found[other] = (found[general] or 0) + 1
                reached.append(other)
    return found


def number_of(members: Set) -> int:
    """The number in which bit g stands for general g (FORMATS.md#plan-text)."""
    return sum(1 << general for general in members)


def sets_in_order(network: Network, most: int) -> Iterator[Set]:
    """The sets of at most so many generals, in the order in which they are tried (FORMATS.md#plan-text)."""
    for count in range(min(most, network.generals) + 1):
        yield from sorted(combinations(range(network.generals), count), key=number_of)


def neighbour_numbers(network: Network) -> List[int]:
    """The neighbours of each general, as a number."""
    return [number_of(network.neighbours(general)) for general in range(network.generals)]


def farthest(neighbours: List[int], absent: Set) -> Optional[int]:
    """The longest of the shortest walks between two generals that are not absent; None if two are cut apart."""
    rest = ((1 << len(neighbours)) - 1) & ~number_of(absent)
    near = [members & rest for members in neighbours]
    if all(rest & ~(near[general] | 1 << general) == 0 for general in members_of(rest)):
        return 1 if rest & (rest - 1) else 0
    return _farthest_among(near, rest)


def _farthest_among(near: List[int], rest: int) -> Optional[int]:
    """The same, by the neighbours of each general and the rest, as numbers."""
    most = 0
    for source in members_of(rest):
        reached, edges = 1 << source, 0
        while reached != rest:
            wider = reached
            for general in members_of(reached):
                wider |= near[general]
            if wider == reached:
                return None
            reached, edges = wider, edges + 1
        most = max(most, edges)
    return most


def members_of(number: int) -> List[int]:
    """The generals whose bits are set in a number."""
    return [general for general in range(number.bit_length()) if number >> general & 1]


def first_pair(network: Network, absent: Set, most: int) -> Optional[Tuple[int, int]]:
    """The least pair that is not joined by so few edges."""
    rest = [general for general in range(network.generals) if general not in absent]
    for first, second in combinations(rest, 2):
        edges = distances(network, absent, first)[second]
        if edges is None or edges > most:
            return first, second
    return None


def first_cut(network: Network) -> Optional[Cut]:
    """The first set that cuts, and the least pair that it cuts; None if the plan holds (FORMATS.md#plan-text)."""
    neighbours = neighbour_numbers(network)
    for members in sets_in_order(network, network.traitors):
        edges = farthest(neighbours, members)
        pair = None if edges is not None and edges <= network.diameter else first_pair(network, members, network.diameter)
        if pair is not None:
            return (members, *pair)
    return None


def least_diameter(network: Network) -> Optional[int]:
    """The least diameter with which the plan holds, if there is one (FORMATS.md#plan-text)."""
    neighbours, most = neighbour_numbers(network), 0
    for members in sets_in_order(network, network.traitors):
        edges = farthest(neighbours, members)
        if edges is None:
            return None
        most = max(most, edges)
    return most


def longest_frame(header: Header) -> int:
    """The bound for a frame of a follower (FORMATS.md#plan-text)."""
    network = header.network
    return EMPTY_FRAME + network.orders * (6 + (1 + header.signature_length) * network.rounds)


def longest_log(header: Header) -> int:
    """The bound for a log of a follower (FORMATS.md#plan-text)."""
    network, signer, rounds = header.network, 1 + header.signature_length, header.network.rounds
    most = max(len(network.neighbours(general)) for general in range(network.generals))
    each = 4 + 5 * rounds + signer * (rounds * (rounds + 1) // 2)
    return 46 + signer + network.orders * (2 + rounds + signer) + most * network.orders * each


def run_bytes(header: Header) -> int:
    """The bytes of all frames of a run of followers (FORMATS.md#plan-text)."""
    network, total = header.network, 0
    for general, edges in enumerate(distances(network, (), 0)):
        neighbours = len(network.neighbours(general))
        total += neighbours * network.rounds * EMPTY_FRAME
        if edges is not None and edges < network.rounds:
            total += (neighbours - (edges > 0)) * (6 + (1 + header.signature_length) * (edges + 1))
    return total


def words_of(number: Optional[int]) -> str:
    """A number, or the word for none."""
    return "none" if number is None else str(number)


def plan_text(header: Header) -> Tuple[bool, bytes]:
    """Whether the plan of a header holds, and its text (FORMATS.md#plan-text)."""
    network = header.network
    cut = first_cut(network)
    lines = ["plan holds" if cut is None else "plan fails"]
    if cut is not None:
        members, first, second = cut
        lines.append(f"without {','.join(map(str, members)) or '-'}")
        lines.append(f"pair {first} {second}")
        lines.append(f"least diameter {words_of(least_diameter(network))}")
        lines.append(f"most traitors {words_of(len(members) - 1 if members else None)}")
    lines.append(f"rounds {network.rounds}")
    lines.append(f"longest frame {longest_frame(header)}")
    lines.append(f"longest log {longest_log(header)}")
    lines.append(f"bytes of a run {run_bytes(header)}")
    lines.append("end")
    return cut is None, "".join(f"{line}\n" for line in lines).encode("ascii")

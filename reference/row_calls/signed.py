#!/usr/bin/env python3
"""Makes the files of crates/rows/data that have signatures in them.

    python3 reference/row_calls/signed.py

A file has runs: of each run the header, the run id, and signatures one behind another. All keys come from a seed of zeros,
and a leaf signs as often as the file wants it. The rows name the parts of a file and lay out logs and evidence of them.
"""

from __future__ import annotations

import os
import sys
from typing import List, Tuple

sys.path.insert(0, os.path.dirname(os.path.dirname(os.path.abspath(__file__))))

from model import keys  # noqa: E402
from model.chain import Chain  # noqa: E402
from model.log import Decide, Entry, Recv, Send, Sign, Start, last_link  # noqa: E402
from model.network import Header, Network  # noqa: E402
from row_calls.reading import DATA  # noqa: E402

MASTER = bytes(32)
PAIR = ((0, 1),)
TRIANGLE = ((0, 1), (0, 2), (1, 2))
FOUR = ((0, 1), (0, 2), (0, 3), (1, 2), (1, 3), (2, 3))
SIXTEEN = tuple((a, b) for a in range(16) for b in range(a + 1, 16))
ONLY_1 = Decide((1,), 1)


def planned(generals: int, edges: Tuple[Tuple[int, int], ...], traitors: int, diameter: int) -> Network:
    """A network with two orders and choice 0."""
    return Network(generals, edges, traitors, diameter, 2, 0)


class Run:
    """A run whose generals have their keys from the seed of zeros."""

    def __init__(self, network: Network, version: int = 1, slot: int = 0) -> None:
        height = keys.height_of(version)
        self.seeds = [keys.general_seed(MASTER, general) for general in range(network.generals)]
        roots = tuple(keys.root(seed, height) for seed in self.seeds)
        self.header = Header(version, slot, network, roots)

    def front(self) -> bytes:
        """The header and the run id."""
        return self.header.spell() + self.header.run_id

    def signed(self, order: int, *path: int) -> bytes:
        """The signature of a statement by the last general of its path."""
        text = keys.digest(self.header.statement(order, path))
        return keys.sign(self.seeds[path[-1]], self.header.height, self.header.leaf(order), text)

    def sealed(self, general: int, *entries: Entry) -> bytes:
        """The signature of the head of a general's log of these entries."""
        link = last_link(self.header.run_id, general, entries)
        text = keys.digest(self.header.head(general, len(entries), link))
        return keys.sign(self.seeds[general], self.header.height, self.header.leaf(None), text)

    def sign(self, order: int, *path: int) -> Sign:
        """The entry SIGN of a statement."""
        return Sign(order, path, self.signed(order, *path))

    def recv(self, order: int, *path: int) -> Recv:
        """The entry RECV of a chain from the last general of its path."""
        signatures = tuple(self.signed(order, *path[:at + 1]) for at in range(len(path)))
        return Recv(path[-1], Chain(order, path, signatures))


def turned(entry: Recv) -> Recv:
    """A RECV with the first bit of its chain's first signature turned."""
    first, *others = entry.chain.signatures
    signatures = (bytes([first[0] ^ 0x80]) + first[1:], *others)
    return Recv(entry.sender, Chain(entry.chain.order, entry.chain.path, signatures))


def commands(run: Run, *receivers: int) -> List[Entry]:
    """The entries of a commander who follows with order 1."""
    return [Start(0, 1), run.sign(1, 0), *(Send(to, 1, (0,)) for to in receivers), ONLY_1]


def hears(run: Run, general: int) -> List[Entry]:
    """The entries of a general who received order 1 from the commander and wrote nothing more."""
    return [Start(general, None), run.recv(1, 0), ONLY_1]


def relays(run: Run, general: int, other: int, order: int) -> List[Entry]:
    """The entries of one of two lieutenants who received an order and sent it to the other."""
    path = (0, general)
    decide = Decide((order,), order)
    return [Start(general, None), run.recv(order, 0), run.sign(order, *path), Send(other, order, path), decide]


def silent(general: int) -> List[Entry]:
    """The entries of a general without an order at whom nothing came."""
    return [Start(general, None), Decide((), 0)]


def pair_file() -> bytes:
    """Two generals, of whom none may be faulty, in one round."""
    run = Run(planned(2, PAIR, 0, 1))
    return b"".join([run.front(), run.signed(1, 0), run.sealed(0, *commands(run, 1)), run.sealed(1, *hears(run, 1)),
                     run.sealed(0, *silent(0))])


def stolen(run: Run) -> List[Entry]:
    """The entries of general 2 of four who follows, and to whom general 3 sent order 0 of the commander."""
    path = (0, 2)
    return [Start(2, None), run.recv(1, 0), run.sign(1, *path), Send(1, 1, path), Send(3, 1, path), run.recv(1, 0, 1),
            run.recv(0, 0, 3), Decide((0, 1), 0)]


def four_file() -> bytes:
    """Four generals who are all neighbours, of whom one may be faulty, in two rounds."""
    run = Run(planned(4, FOUR, 1, 1))
    log = stolen(run)
    received = log[6]
    assert isinstance(received, Recv)
    bent = [*log[:6], turned(received), log[7]]
    statements = [(1, 0), (0, 0), (1, 0, 1), (1, 0, 2), (0, 0, 3)]
    heads = [run.sealed(0, *commands(run, 1, 2, 3)), run.sealed(0, *silent(0)), run.sealed(2, *log), run.sealed(2, *bent)]
    return b"".join([run.front(), *(run.signed(*statement) for statement in statements), *heads])


def three_file() -> bytes:
    """Three generals who are all neighbours, of whom one may be faulty, in three rounds."""
    run = Run(planned(3, TRIANGLE, 1, 2))
    statements = [(1, 0), (0, 0), (1, 0, 1), (1, 0, 2), (0, 0, 1), (0, 0, 2), (1, 0, 2, 1)]
    first, others = relays(run, 2, 1, 1)[:4], [run.recv(1, 0, 1), ONLY_1]
    back = Recv(1, Chain(1, (0, 2, 1), run.recv(1, 0, 2, 1).chain.signatures))
    heads = [run.sealed(1, *relays(run, 1, 2, 1)), run.sealed(1, *hears(run, 1)), run.sealed(2, *relays(run, 2, 1, 0)),
             run.sealed(2, *first, *others), run.sealed(2, *first, back, ONLY_1),
             run.sealed(1, *relays(run, 1, 2, 0)), run.sealed(2, *hears(run, 2))]
    return b"".join([run.front(), *(run.signed(*statement) for statement in statements), *heads])


def runs_file() -> bytes:
    """Three runs of two generals: in slot 0 none may be faulty, in slot 0 one may be, and in slot 1 one may be."""
    alone, doubted = planned(2, PAIR, 0, 1), planned(2, PAIR, 1, 1)
    first, second, third = Run(alone, 2, 0), Run(doubted, 2, 0), Run(doubted, 2, 1)
    return b"".join([first.front(), first.signed(1, 0), first.sealed(0, *commands(first, 1)), first.sealed(1, *hears(first, 1)),
                     second.front(), second.signed(1, 0), second.sealed(0, *commands(second, 1)), second.signed(0, 0),
                     third.front(), third.signed(1, 0), third.sealed(0, *commands(third, 1))])


def unsigned(order: int, *path: int) -> Recv:
    """The entry RECV of a chain from the last general of its path, whose signatures are zeros."""
    return Recv(path[-1], Chain(order, path, (bytes(keys.signature_length(4)),) * len(path)))


def largest_file() -> bytes:
    """Sixteen generals who are all neighbours, of whom eight may be faulty, in sixteen rounds with fifteen orders.

    General 1 sealed a log without an order, and one of 3.7 MB that departs: the longest chains that can come, one of each
    order, whose signatures are zeros, and nothing signed for them.
    """
    run = Run(Network(16, SIXTEEN, 8, 8, 15, 1))
    path = (0, *range(2, 16))
    received = [unsigned(order, *path) for order in range(15)]
    log: List[Entry] = [Start(1, None), *received, Decide(tuple(range(15)), 14)]
    return run.front() + run.sealed(1, *silent(1)) + run.sealed(1, *log)


FILES = {"pair.signed": pair_file, "four.signed": four_file, "three.signed": three_file, "runs.signed": runs_file,
         "largest.signed": largest_file}


def main() -> None:
    """Write all files."""
    for name, made in FILES.items():
        with open(os.path.join(DATA, name), "wb") as file:
            file.write(made())


if __name__ == "__main__":
    main()

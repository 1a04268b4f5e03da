"""What one who follows does: which orders he adds, what he relays, and which logs he can keep."""

from __future__ import annotations

from typing import Dict, List, Optional, Sequence, Set, Tuple

from .log import Decide, Entry, Recv, Send, Sign, Start
from .network import Network, Path

COMMANDER = 0


def plain_sets(network: Network, order: int) -> List[Set[int]]:
    """The orders that each general accepts where everybody follows (PROTOCOL.md#the-rounds)."""
    accepted: List[Set[int]] = [set() for _ in range(network.generals)]
    accepted[COMMANDER] = {order}
    sending: Dict[int, Path] = {COMMANDER: (COMMANDER,)}
    for _ in range(network.rounds):
        picked: Dict[int, Path] = {}
        for sender in sorted(sending):
            for receiver in network.neighbours(sender):
                if receiver not in sending[sender] and order not in accepted[receiver]:
                    picked.setdefault(receiver, sending[sender])
        for receiver in picked:
            accepted[receiver].add(order)
        sending = {receiver: path + (receiver,) for receiver, path in picked.items()}
    return accepted


class Keeper:
    """A follower's log that is read entry by entry, and what its next entries have to be.

    PROTOCOL.md#the-rounds and FORMATS.md#log say what a follower signs, sends and writes.
    """

    def __init__(self, network: Network, general: int) -> None:
        self.network = network
        self.general = general
        self.round = 0
        self.own: Optional[int] = None
        self.added: Dict[int, Tuple[int, List[Path]]] = {}
        self.to_sign: List[int] = []
        self.signed: Dict[int, Path] = {}
        self.to_send: List[Send] = []

    def takes(self, entry: Entry) -> bool:
        """Whether a follower's log may go on with this entry; if so it is taken."""
        if isinstance(entry, Start):
            return self._start(entry)
        if isinstance(entry, Decide):
            return self._enter(self.network.rounds) and self._all_sent() and self._decides(entry)
        if not self._enter(entry.place()[0]):
            return False
        if isinstance(entry, Sign):
            return self._sign(entry)
        if isinstance(entry, Send):
            return self._send(entry)
        return self._all_sent() and self._receive(entry)

    def _start(self, entry: Start) -> bool:
        """The commander has an order of his own, and a lieutenant has none."""
        self.own = entry.own
        return entry.general == self.general and (entry.own is not None) == (self.general == COMMANDER)

    def _all_sent(self) -> bool:
        """Whether nothing is owed in the round."""
        return not self.to_sign and not self.to_send

    def _enter(self, number: int) -> bool:
        """Go on to a round, where nothing is owed before it."""
        while self.round < number:
            if not self._all_sent():
                return False
            self.round += 1
            self.signed = {}
            if self.general == COMMANDER:
                self.to_sign = [self.own] if self.round == 1 and self.own is not None else []
            else:
                self.to_sign = sorted(order for order in self.added if self.added[order][0] == self.round - 1)
        return self.round == number

    def _sign(self, entry: Sign) -> bool:
        """He signs what he owes, in ascending order, with a path that he may have picked."""
        if not self.to_sign or entry.order != self.to_sign[0] or entry.path[-1] != self.general:
            return False
        if self.general != COMMANDER and entry.path[:-1] not in self.added[entry.order][1]:
            return False
        self.to_sign.pop(0)
        self.signed[entry.order] = entry.path
        if not self.to_sign:
            self.to_send = [Send(to, order, self.signed[order])
                            for to in self.network.neighbours(self.general)
                            for order in sorted(self.signed) if to not in self.signed[order]]
        return True

    def _send(self, entry: Send) -> bool:
        """He sends what he signed, to each neighbour who is not in the path."""
        if self.to_sign or not self.to_send or entry != self.to_send[0]:
            return False
        self.to_send.pop(0)
        return True

    def _receive(self, entry: Recv) -> bool:
        """A chain arrives from the neighbour who signed last, and the receiver is not in its path."""
        chain = entry.chain
        if entry.sender not in self.network.neighbours(self.general):
            return False
        if chain.path[-1] != entry.sender or self.general in chain.path:
            return False
        number, paths = self.added.setdefault(chain.order, (self.round, []))
        if number == self.round:
            paths.append(chain.path)
        return True

    def _decides(self, entry: Decide) -> bool:
        """The commander decides his own order, and a lieutenant the choice of what he added."""
        if self.general == COMMANDER:
            return entry.orders == (self.own,) and entry.order == self.own
        return entry.orders == tuple(sorted(self.added)) and entry.order == self.network.decided(entry.orders)


def departs(network: Network, general: int, entries: Sequence[Entry]) -> Optional[int]:
    """The first entry with which a log begins no log that a follower could keep (FORMATS.md#findings)."""
    keeper = Keeper(network, general)
    for index, entry in enumerate(entries):
        if not keeper.takes(entry):
            return index
    return None

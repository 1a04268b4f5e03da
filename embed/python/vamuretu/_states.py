"""The states of a node's secret, as records."""

from __future__ import annotations

import ctypes

from ._faults import OtherSystem
from ._headers import must
from ._libraries import NODES, SYSTEM_ID_BYTES, Bytes, SystemId, exactly, library, number, system_id_of

SECRET_BYTES, SEED_BYTES, STATE_BYTES = 32, 32, 68
# The record is of another system.
OTHER = 7
# The most sets of keys of one secret.
SETS_MOST = 1 << 20


class SetState:
    """A state of a node's secret, the number of its set of keys, and the id of the one system that it serves: a secret
    record of 68 bytes, `data`. Whoever has it can sign as the node in this set and all later ones, and in no earlier one.

    A state gives the seed of its set as often as it is asked: KeptState is what hands out each seed once.
    """

    def __init__(self, data: Bytes) -> None:
        self.data = exactly(STATE_BYTES, data, "a state")

    @classmethod
    def first(cls, secret: Bytes, system: SystemId) -> "SetState":
        """The state of set 0 of a secret, 32 secret bytes, for the system with this id. A secret serves one system alone."""
        room = ctypes.create_string_buffer(STATE_BYTES)
        words = exactly(SECRET_BYTES, secret, "a secret"), system_id_of(system), room
        must(library(NODES).sm_node_state(*words), "sm_node_state")
        return cls(room.raw)

    @property
    def number(self) -> int:
        """The number of the state's set."""
        return int.from_bytes(self.data[:4], "big")

    @property
    def system(self) -> bytes:
        """The id of the system that the state serves, 32 bytes."""
        return self.data[-SYSTEM_ID_BYTES:]

    def seed(self, system: SystemId) -> bytes:
        """The seed of the state's set for the system with this id. OtherSystem if the state serves another."""
        room = ctypes.create_string_buffer(SEED_BYTES)
        status = library(NODES).sm_node_state_seed(self.data, system_id_of(system), room)
        if status == OTHER:
            raise OtherSystem("fault A11")
        must(status, "sm_node_state_seed")
        return room.raw

    def advance_to(self, set: int) -> "SetState":
        """The state of a later set, or of the same. Misuse for an earlier one."""
        room = ctypes.create_string_buffer(self.data, STATE_BYTES)
        must(library(NODES).sm_node_state_advance(room, number(set, 1 << 32, "set")), "sm_node_state_advance")
        return SetState(room.raw)

    def __repr__(self) -> str:
        return f"SetState({self.number}, ..)"

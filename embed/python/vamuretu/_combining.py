"""How several decided values become one."""

from __future__ import annotations

import ctypes
import enum
from typing import Iterable

from ._faults import Misuse
from ._headers import must
from ._libraries import NODES, library, number

ORDERS = 16


class Combination(enum.IntEnum):
    """A rule that makes one value (order) of several decided ones."""

    MEDIAN = 0
    """The least value such that at least half of the values are at most it."""

    MAJORITY = 1
    """The value that more than half of the values are, or 0 if there is none."""

    ALL = 2
    """The value that all of the values are, or 0 if they differ."""


def combine(rule: Combination, orders: Iterable[int]) -> int:
    """The value (order) that a rule makes of those that several runs decided, each 0 to 15. Misuse if there are none.

    With at most m faulty nodes and more than 2m values, each of which another node proposed, the median is from the least
    to the greatest value that correct nodes proposed, and the majority is the value that all of these proposed, if there is
    one. By ALL no value but 0 comes that is not each correct node's. Nothing tells whether the values are of such runs.
    """
    given = bytes(number(order, ORDERS, "order") for order in orders)
    if not given:
        raise Misuse("there are no values to make one of")
    made = ctypes.c_uint32()
    status = library(NODES).sm_node_combine(Combination(rule).value, given, len(given), ctypes.byref(made))
    must(status, "sm_node_combine")
    return made.value

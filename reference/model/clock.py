"""Which run of a system a node begins next, by the clock."""

from __future__ import annotations

from bisect import bisect_left
from dataclasses import dataclass
from typing import Optional, Tuple

from .identity import MOST_LEVELS
from .system import RUNS_OF_SET

# A system has at most so many runs, and a time is below this.
MOST_RUNS = 2 ** MOST_LEVELS * max(RUNS_OF_SET.values())
TIMES = 2 ** 63


@dataclass(frozen=True)
class Timetable:
    """When the runs that a system can have begin, run 0 first (NODES.md#which-run-is-next)."""

    start: int
    period: int

    def __len__(self) -> int:
        return MOST_RUNS

    def __getitem__(self, run: int) -> int:
        return self.start + run * self.period

    def next_run(self, now: int, mark: Optional[int]) -> Optional[Tuple[int, int]]:
        """The least run above the mark that begins now or later, and when (NODES.md#which-run-is-next). It is looked for among
        all runs, whose beginnings ascend."""
        run = bisect_left(self, now, 0 if mark is None else mark + 1)
        if run >= MOST_RUNS or self[run] >= TIMES:
            return None
        return run, self[run]

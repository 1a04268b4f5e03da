"""Which run is next, by the clock: what the reference tells."""

import unittest

from vamuretu import Misuse, NextRun, next_run

from .support import needs
from model.clock import MOST_RUNS, TIMES, Timetable  # noqa: E402, of the reference, whose folder support.py names

LAST = MOST_RUNS - 1


@needs("sm_node")
class NextRuns(unittest.TestCase):
    def test_as_the_reference(self):
        for start, period in ((1000, 100), (-1000, 7), (0, 0), (0, 1), (-TIMES, 2**64 - 1), (TIMES - 1, 1), (-5, TIMES)):
            for mark in (None, 0, 4, 5, 1_000_000, LAST - 1, LAST, 2**32 - 2):
                for now in (-TIMES, -5000, -1, 0, 1, 999, 1000, 1001, 1100, LAST, LAST + 1, TIMES - 1):
                    found = Timetable(start, period).next_run(now, mark)
                    told = next_run(now, start=start, period=period, mark=mark)
                    self.assertEqual(told, found and NextRun(*found), (now, start, period, mark))

    def test_misuse(self):
        good = {"now": 0, "start": 0, "period": 1, "mark": None}
        for name, value in (("now", TIMES), ("now", -TIMES - 1), ("start", TIMES), ("period", -1), ("period", 2**64),
                            ("mark", -1), ("mark", 2**32 - 1)):
            words = {**good, name: value}
            self.assertRaises(Misuse, next_run, words.pop("now"), **words)

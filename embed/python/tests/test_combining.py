"""One value of several decided ones: what Python's own counts and medians are."""

import collections
import itertools
import statistics
import unittest

from vamuretu import Combination, Misuse, combine

from .support import needs


def by_counting(rule, orders):
    """The value that a rule makes, by Python's library."""
    if rule is Combination.MEDIAN:
        return statistics.median_low(orders)
    value, count = collections.Counter(orders).most_common(1)[0]
    wanted = len(orders) // 2 + 1 if rule is Combination.MAJORITY else len(orders)
    return value if count >= wanted else 0


@needs("sm_node")
class Combinations(unittest.TestCase):
    def test_all_short_lists(self):
        for rule, length in itertools.product(Combination, range(1, 5)):
            for orders in itertools.product((0, 1, 2, 14, 15), repeat=length):
                self.assertEqual(combine(rule, orders), by_counting(rule, list(orders)), (rule, orders))

    def test_a_faulty_minority_moves_neither_median_nor_majority(self):
        for lies in itertools.product(range(15), repeat=2):
            self.assertEqual(combine(Combination.MAJORITY, [7, lies[0], 7, lies[1], 7]), 7)
            self.assertIn(combine(Combination.MEDIAN, [5, lies[0], 6, lies[1], 9]), range(5, 10))
            self.assertEqual(combine(Combination.ALL, [7, 7, 7, *lies]), 7 if lies == (7, 7) else 0)

    def test_misuse(self):
        self.assertRaises(Misuse, combine, Combination.MEDIAN, [])
        for wrong in (-1, 16, 256):
            self.assertRaises(Misuse, combine, Combination.ALL, [1, wrong])
        self.assertRaises(ValueError, combine, 3, [1])

"""Numbers drawn from a seed, which are the same wherever they are drawn."""
import hashlib


class Draws:
    """The numbers are of SHA-256 of the seed and a count."""

    def __init__(self, seed):
        self.seed, self.count = seed, 0

    def below(self, limit):
        """A number below the limit."""
        self.count += 1
        return int.from_bytes(hashlib.sha256(f"{self.seed} {self.count}".encode()).digest()[:8], "big") % limit

    def one_of(self, items):
        return items[self.below(len(items))]

    def is_one_in(self, count):
        return self.below(count) == 0

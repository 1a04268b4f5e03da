"""A fault of an input, and a cursor over the bytes of an input."""

from __future__ import annotations


class Fault(Exception):
    """A rule that an input breaks, as the words that name it: `B3 H6`."""

    @property
    def words(self) -> str:
        """The words of the fault, without the word `fault` in front."""
        return str(self.args[0])


class Cursor:
    """Bytes that are read from left to right; an early end is the fault `short`."""

    def __init__(self, data: bytes, short: str) -> None:
        self.data = data
        self.short = short
        self.place = 0

    def take(self, count: int) -> bytes:
        """The next `count` bytes."""
        if len(self.data) - self.place < count:
            raise Fault(self.short)
        self.place += count
        return self.data[self.place - count:self.place]

    def number(self, count: int) -> int:
        """The next `count` bytes as a big-endian number."""
        return int.from_bytes(self.take(count), "big")

    def rest(self) -> bytes:
        """The bytes that are left; they stay unread."""
        return self.data[self.place:]

    def at_end(self) -> bool:
        """Whether no bytes are left."""
        return self.place == len(self.data)

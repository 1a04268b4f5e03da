"""Bundles and logs in parts that can be changed one by one, as the reference reads them, and where the small bytes of a file
stand: those that are neither of roots, nor of signatures, nor of run ids.
"""
import dataclasses

import reference  # noqa: F401
from model.bundle import MARKS, Exhibit, read_bundle
from model.evidence import read_evidence
from model.faults import Cursor
from model.log import read_log, read_set, spell_set
from model.network import read_header
from model.receipt import read_receipts

MARK, ROOT = 4, 32
# The fields of the reference's values that are roots, run ids or signatures, and those that are logs as bytes.
LONG, LOGS = ("roots", "run_id", "signature", "signatures"), ("data", "log")


def header_of(data):
    """The header behind the mark of a bundle, or of a piece of evidence."""
    return read_header(Cursor(data[MARK:], "H9"), None)


def front_length(data):
    """The length of the mark and the header."""
    return MARK + len(header_of(data).spell())


def with_shared_root(data, first, second):
    """The same with the root of the second general in the place of that of the first."""
    header = header_of(data)
    roots = [header.roots[second if general == first else general] for general in range(len(header.roots))]
    return data[:MARK] + dataclasses.replace(header, roots=roots).spell() + data[front_length(data) :]


class Bundle:
    """A bundle in its parts. Its header stays."""

    def __init__(self, data):
        read = read_bundle(data)
        self.header, self.front = read.header, MARKS[read.header.version] + read.header.spell()
        self.faulty, self.walks = spell_set(read.faulty), [list(walk) for walk in read.walks]
        self.exhibits = [(exhibit.general, exhibit.data) for exhibit in read.exhibits]
        self.read = read

    def spell(self):
        faulty, exhibits = read_set(int.from_bytes(self.faulty, "big")), [Exhibit(*exhibit) for exhibit in self.exhibits]
        return dataclasses.replace(self.read, faulty=faulty, walks=self.walks, exhibits=exhibits).spell()


class Log:
    """A log in its parts: the reference's, and the bytes of the entries and of the last signature, which may be changed."""

    def __init__(self, data, header):
        self.read = read_log(data, header)
        self.entries, self.head = [entry.spell() for entry in self.read.entries], self.read.signature

    def spell(self):
        return self.read.run_id + len(self.entries).to_bytes(8, "big") + b"".join(self.entries) + self.head


def long_parts(value, header):
    """The roots, run ids and signatures of what the reference has read, in the order of its bytes."""
    if isinstance(value, (list, tuple)):
        return [part for it in value for part in long_parts(it, header)]
    found = []
    for name in (it.name for it in dataclasses.fields(value)) if dataclasses.is_dataclass(value) else ():
        inner = getattr(value, name)
        if name in LONG:
            found += [inner] if isinstance(inner, bytes) else inner
        else:
            found += long_parts(read_log(inner, header) if name in LOGS else inner, header)
    return found


def small_places(data, read):
    """The places of the small bytes of a file, of which this was read."""
    places, at = [], 0
    for part in long_parts(read, read.header):
        begin = data.index(part, at)
        places += range(at, begin)
        at = begin + len(part)
    return [*places, *range(at, len(data))]


def small_in_bundle(data):
    return small_places(data, read_bundle(data))


def small_in_evidence(data):
    return small_places(data, read_evidence(data))


def small_in_receipt(data):
    """Those of one receipt. The link is a long part as a root is, but for its first byte."""
    [receipt] = read_receipts(data).receipts
    places = range(front_length(data), len(data) - len(receipt.signature))
    link = places.start + 9
    header = [place for place in range(front_length(data)) if place < front_length(data) - ROOT * len(header_of(data).roots)]
    return [*header, *(place for place in places if not link < place < link + ROOT)]


def ends_of_parts(places, length):
    """The lengths of the prefixes that end at, before or behind a border between small bytes and the others."""
    small = set(places)
    borders = [place for place in small if place + 1 not in small] + [place - 1 for place in small if place - 1 not in small]
    near = {border + step for border in borders for step in (0, 1, 2)}
    return sorted(place for place in near if 0 <= place < length)

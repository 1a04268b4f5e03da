"""Cases of the jobs that the libraries for C and the page answer by answers that are kept: as words of the program and an
input. Runs are expected, files are shown, names are explained, and texts have words.
"""
import os
import re

from campaigns import EXAMPLES, example as read
from programs import run

FORMATS = os.path.join(os.path.dirname(os.path.dirname(os.path.abspath(__file__))), "docs", "FORMATS.md")
NO_RUN = "0" * 64
FILES = ["split.bundle", "series.bundles", "split.evidence", "disputed.bundle"]


def runs_of(program, given):
    """The ids of the runs of a file, by what the program shows of it."""
    return re.findall(r"^run (\S+)", run(program, ["show"], given).wrote.decode(), re.M)


def lists_of(runs):
    """The runs of a file as they are expected, and others: another, the first alone, one that is another, and more."""
    return [runs, [NO_RUN], runs[:1], [*runs[:-1], NO_RUN], runs * 2 if len(runs) < 3 else runs[::-1]]


def nearly(runs):
    """The runs of a file, of which one is other in few bytes: in each single one, and in those by which a wrong mask of 32 lanes
    took other ids for the same (docs/LLVM.md).
    """
    for places in [*((at,) for at in range(32)), (2, 3), (0, 1, 2, 3, 5, 15)]:
        at = places[0] % len(runs)
        other = bytes(byte ^ (place in places) for place, byte in enumerate(bytes.fromhex(runs[at])))
        yield [*runs[:at], other.hex(), *runs[at + 1 :]]


def pinned_cases(program):
    """Files of which runs are expected, strictly or not; and a bundle that is explained."""
    for name in FILES:
        given = read(name)
        runs = runs_of(program, given)
        for ids in [*lists_of(runs), *nearly(runs)]:
            asked = ["--run", ",".join(ids)]
            if name.endswith("evidence"):
                yield ["evidence", *asked], given
            else:
                yield from ((words, given) for words in (["audit", *asked], ["audit", "--strict", *asked], ["draw", *asked]))
                yield ["accuse", "--general", "0", *asked], given
    explained = run(program, ["run"], read("one_too_many.scenario")).wrote
    yield from ((words, explained) for words in (["audit"], ["audit", "--strict"]))


def names():
    """The names of faults, findings and kinds in the formats, and other names."""
    with open(FORMATS, encoding="utf-8") as file:
        named = file.read()
    codes = set(re.findall(r"^- ([BMQVHLC]\d+):", named, re.M)) | set(re.findall(r"^- `(N\d+)", named, re.M))
    return [*sorted(codes), *(f"K{number}" for number in range(1, 6)), "P9 S3", "X1", "agreed"]


def told_cases():
    """Files to be shown, names to be explained, and texts with words."""
    for name in sorted(os.listdir(EXAMPLES)):
        if os.path.isfile(os.path.join(EXAMPLES, name)):
            yield ["show"], read(name)
            yield ["words"], read(name)
    yield from ((["explain", name], name.encode()) for name in names())


def answer_of(program, words, given):
    """The end of the program: a name is one of its words."""
    return run(program, words, b"" if words[0] == "explain" else given)

"""Campaigns: worked ones, with the verdicts on them and evidence across two runs; texts and bytes with faults; prefixes.

What they are held against was made by an independent implementation: digests, and the verdict in examples/series.verdict.
"""
import hashlib
import os

from programs import End, differs, fault, first_line, run
from scenarios import ZEROS, chain, everybody, scenario
from vector_cases.handed_in import several as bytes_of

EXAMPLES = os.path.join(os.path.dirname(os.path.abspath(__file__)), "..", "examples")

# The digests of the campaign of examples/series.campaign, and of that of one run of two generals in slot 1.
SERIES = "014d7009858b33702bf6ca62a31ed4e0a27ca39178771ce2e461d5d6e95e5027"
ALONE = "2d313429d40ff75b5687ef00f8d04f7cada543d6b7c11d53e15957e927f50c37"


def example(name):
    with open(os.path.join(EXAMPLES, name), "rb") as kept:
        return kept.read()


def pair(slot, traitors=0, scripts=None, seed=ZEROS, generals=2):
    """The text of two generals or more in a line."""
    return scenario(chain(generals), traitors, generals - 1, 1, scripts, seed=seed, slot=slot)


def text_of(*texts):
    return b"campaign %d\n" % len(texts) + b"".join(texts)


def slot_twice(program):
    """The bundles of two runs in one slot."""
    return [run(program, ["run"], text).wrote for text in (pair(0), pair(0, 1, {1: []}))]


def try_runs(program, tally):
    """The campaigns of texts, and the verdict on one."""
    for name, text, digest in (("series", example("series.campaign"), SERIES), ("alone", text_of(pair(1)), ALONE)):
        for words in (["campaign"], ["campaign", "--capacity", "16"]):
            made = run(program, words, text)
            is_well = made.status == 0 and hashlib.sha256(made.wrote).hexdigest() == digest
            tally.hold(f"{' '.join(words)}, {name}", None if is_well else f"another campaign, status {made.status}")
            tally.count(1)
    series = run(program, ["campaign"], example("series.campaign")).wrote
    for words in (["audit"], ["audit", "--workers", "5"]):
        tally.hold(f"{' '.join(words)}, series", differs(run(program, words, series), End(0, example("series.verdict"), b"")))
    found = run(program, ["accuse", "--general", "0"], series)
    tally.hold("accuse, series", None if len(found.wrote) == 33270 else f"{len(found.wrote)} bytes, status {found.status}")
    tally.hold("evidence, series", differs(run(program, ["evidence"], found.wrote), End(0, b"evidence holds\n", b"")))
    tally.count(4)


def try_across(program, tally):
    """One slot used twice: who signed in both runs is convicted, unless the runs are of two slots."""
    first, second = (run(program, ["run"], text).wrote for text in (pair(0), pair(0, 1, {1: []})))
    both = bytes_of(first, second)
    lines = run(program, ["audit"], both).wrote.decode().splitlines()
    wanted = ["convicted 0 by K1 across 0 1", "convicted 1 by K1 across 0 1", "end campaign"]
    tally.hold("audit, one slot twice", None if lines[-3:] == wanted else f"{lines}")
    found = run(program, ["accuse", "--general", "0"], both).wrote
    tally.hold("accuse, one slot twice", None if len(found) == 33314 else f"{len(found)} bytes")
    tally.hold("evidence, one slot twice", differs(run(program, ["evidence"], found), End(0, b"evidence holds\n", b"")))
    bent = found[:-1] + bytes([found[-1] ^ 1])
    tally.hold("evidence, a bent one", differs(run(program, ["evidence"], bent), End(1, b"evidence fails\n", b"")))
    apart = bytes_of(first, run(program, ["run"], pair(1, 1, {1: []})).wrote)
    tally.hold("audit, two slots", None if b"across" not in run(program, ["audit"], apart).wrote else "somebody is convicted")
    tally.count(5)


def try_texts(program, tally):
    """Texts with faults, and every proper prefix of one."""
    one, other = pair(1), pair(2)
    unseeded = scenario(chain(2), 0, 1, 1, seed=None)
    cases = [(b"", "P1 line 1"), (b"campaign 1", "P1 line 1"), (b"campaign 0\n", "P14 line 1"), (b"campaign 5\n", "P14 line 1")]
    cases += [(b"campaign x\n", "P3 line 1"), (b"campaign\n", "P2 line 1"), (one, "P2 line 1"), (b"campaign 2\n" + one, "P1 line 12")]
    cases += [(text_of(one, one), "P15 line 20"), (text_of(other, one), "P15 line 20"), (b"campaign 1\n" + one + other, "P10 line 12")]
    cases += [(text_of(one, pair(2, generals=3)), "P15 line 12"), (text_of(one, pair(2, seed="11" * 32)), "P15 line 19")]
    cases += [(text_of(one, pair(4)), "P13 line 20"), (text_of(pair(None)), "P2 line 10"), (text_of(unseeded), "P2 line 9")]
    for text, answer in cases:
        tally.hold(f"campaign, {answer}", differs(first_line(run(program, ["campaign"], text)), fault(f"fault {answer}")))
    text = text_of(one)
    for end in range(len(text)):
        wanted = fault(f"fault P1 line {text[:end].count(10) + 1}")
        tally.hold(f"campaign, {end} bytes of a text", differs(run(program, ["campaign"], text[:end]), wanted))
    tally.hold("run, the text of a campaign", differs(first_line(run(program, ["run"], text)), fault("fault P2 line 1")))
    tally.count(len(cases) + len(text) + 1)


def try_bytes(program, tally):
    """Bytes with faults."""
    one, other = (run(program, ["run"], pair(slot)).wrote for slot in (1, 2))
    wider = run(program, ["run"], scenario(everybody(3), 0, 1, 1, slot=2)).wrote
    cases = [(bytes_of(other, one), "M4"), (bytes_of(one, one), "M4"), (bytes_of(one, wider), "M4"), (b"SMC2", "M1")]
    cases += [(b"SMC2\0", "M2"), (b"SMC2\5", "M2"), (bytes_of(one)[:5], "M3 run 0 B1"), (b"SMC2\2" + one, "M3 run 1 B1")]
    cases += [(bytes_of(one, other)[:-1], "M3 run 1 B1"), (bytes_of(one, other) + b"\0", "M5"), (b"SMC", "B1")]
    cases += [(bytes_of(one, b"SMB1" + other[4:]), "M3 run 1 B2"), (b"SMC1" + bytes_of(one)[4:], "B2")]
    cases += [(bytes_of(one, other[:6] + b"\x11" + other[7:]), "M3 run 1 B3 H1")]
    for data, answer in cases:
        for words in (["audit"], ["accuse", "--general", "0"]):
            tally.hold(f"{words[0]}, {answer}", differs(first_line(run(program, words, data)), fault(f"fault {answer}")))
            tally.count(1)


def trials(program, tally):
    if "campaign" not in tally.commands:
        return
    for part in tally.chosen([try_runs, try_across, try_texts, try_bytes]):
        part(program, tally)

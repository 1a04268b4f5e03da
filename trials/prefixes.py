"""Inputs that end early, or a byte late: what each of them answers is known from docs/FORMATS.md.

Of scenario texts, and of bundles and evidence up to the end of the header, every proper prefix is tried; behind it those
that end at a border between parts or beside one, and some more that are drawn.
"""
from draws import Draws
from layout import ends_of_parts, front_length, small_in_bundle, small_in_evidence, small_in_receipt
from programs import differs, fault, run, side_by_side
from scenarios import scenario, signed, chain

DRAWN = 150
SEED = "prefixes"


def first_wrong(program, words, cases):
    """None where each input is answered with its end, else what is wrong with the first that is not."""
    ends = side_by_side(lambda case: run(program, words, case[0]), cases)
    wrong = (differs(end, wanted) for end, (_, wanted) in zip(ends, cases))
    return next((f"{len(given)} bytes: {it}" for it, (given, _) in zip(wrong, cases) if it), None)


def texts():
    """Scenario texts of both kinds, by name, with a script of each word."""
    plain = {"no seed": scenario(chain(3), 0, 2, 1, seed=None)}
    words = ["make 2 0 1 0,1", "pass 2 2 0 1 1", "bend 2 2 0 1", "raw 1 2 0fF0", "hide 1 0 1", "twohead"]
    plain["all words"] = scenario([(1, 0), (1, 2)], 1, 1, 1, {0: [], 1: words}, orders=3)
    return plain | {f"{name} in a slot": text for name, text in signed(slot=3).items() if name in ("split", "late")}


def text_cases(text):
    """Every proper prefix of a text, which lacks the line that it ends in or before, and the text with a byte more."""
    cases = [(text[:end], fault(f"fault P1 line {text.count(10, 0, end) + 1}")) for end in range(len(text))]
    beyond = fault(f"fault P10 line {text.count(10) + 1}")
    return cases + [(text + more, beyond) for more in (b"\n", b" ", b"\0", b"e")]


def byte_cases(data, places, early, late):
    """Prefixes of bytes with small bytes at these places, and the bytes with one more."""
    draws = Draws(SEED)
    ends = {*range(front_length(data) + 1), *ends_of_parts(places, len(data)), len(data) - 1}
    ends |= {draws.below(len(data)) for _ in range(DRAWN)}
    return [(data[:end], fault(early)) for end in sorted(ends)] + [(data + more, fault(late)) for more in (b"\0", b"\1")]


def bundles(program):
    """Bundles of both versions, by name."""
    made = {"1": signed()["split"], "2": signed(slot=2)["late"]}
    return {f"of version {name}": run(program, ["run"], text).wrote for name, text in made.items()}


def evidence(program):
    """Evidence of each kind and version, by name."""
    found = {}
    for version, texts_of_it in (("1", signed()), ("2", signed(slot=1))):
        for name, general in (("two_heads", 1), ("split", 0), ("late", 0), ("late", 1)):
            bundle = run(program, ["run"], texts_of_it[name]).wrote
            piece = run(program, ["accuse", "--general", str(general)], bundle).wrote
            found[f"of kind {piece[front_length(piece) + 1]}, version {version}"] = piece
    return found


def receipts(program):
    """A receipt of both versions, by name."""
    return {name: run(program, ["receipt", "--general", "1"], data).wrote for name, data in bundles(program).items()}


def trials(program, tally):
    for name, text in texts().items():
        for command in ("decide", "run", "judge"):
            if command in tally.commands:
                cases = text_cases(text)
                tally.count(len(cases))
                tally.hold(f"{command}, prefixes of a text with {name}", first_wrong(program, [command], cases))
    for name, data in bundles(program).items():
        cases = byte_cases(data, small_in_bundle(data), "fault B1", "fault B8")
        for words in (["audit"], ["accuse", "--general", "0"]):
            tally.count(len(cases))
            tally.hold(f"{words[0]}, prefixes of a bundle {name}", first_wrong(program, words, cases))
    for name, data in evidence(program).items():
        cases = byte_cases(data, small_in_evidence(data), "fault V1", "fault V5")
        tally.count(len(cases))
        tally.hold(f"evidence, prefixes of evidence {name}", first_wrong(program, ["evidence"], cases))
    for name, data in receipts(program).items():
        cases = byte_cases(data, small_in_receipt(data), "fault Q1", "fault Q1")
        tally.count(len(cases))
        tally.hold(f"receipts, prefixes of a receipt {name}", first_wrong(program, ["receipts"], cases))

"""Vectors of receipts."""

from __future__ import annotations

from typing import Dict, Iterable, List, Optional, Sequence, Tuple

from model.bundle import read_bundle
from model.faults import Cursor
from model.network import Header, read_header
from model.receipt import Receipt, receipt_in

from .handed_in import several, small_bundle
from .parts import Piece, Vector, command, file_bytes, output_of, with_byte
from .small import header_of, network_of, pair_header
from .texts import TRIANGLE, ZEROS, scenario_lines, text_of

SPLIT = "examples/split.bundle"


# Receipts of two generals, whose signatures are zero bytes and don't verify.


def small_receipt(version: int = 1, slot: int = 0, general: int = 1, entries: int = 3, orders: Tuple[int, ...] = (1,), order: int = 1,
                  header: Optional[Header] = None) -> bytes:
    """The bytes of a receipt in a run of two generals, or in another."""
    run = header or pair_header(version, slot)
    return Receipt(general, entries, bytes(32), orders, order, bytes(run.signature_length)).spell(run)


def receipt_faults() -> Iterable[Tuple[str, bytes]]:
    """Bytes that are no receipts."""
    one, two = small_receipt(), small_receipt(2, 1)
    yield from [("no bytes", b""), ("three bytes of a mark", b"SMR"), ("three bytes that are none", b"abc"),
                ("another mark", b"SMR3" + one[4:]), ("it ends behind the mark", one[:4]),
                ("it ends in the roots", one[:70]), ("it ends behind the header", one[:77]),
                ("version 2 behind the mark of version 1", b"SMR1" + two[4:]),
                ("and the other way", b"SMR2" + one[4:]), ("slot 4", with_byte(two, 5, 4)),
                ("one general", with_byte(one, 5, 1)), ("one order", with_byte(one, 8, 1)),
                ("general 2 of two, and the bytes end", one[:77] + b"\2"),
                ("it ends in the number of entries", one[:85]), ("it ends in the link", one[:117]),
                ("half of the set", one[:119]),
                ("order 2 of two in the set, and the bytes end", small_receipt(orders=(0, 2))[:120]),
                ("order 15 in the set", small_receipt(orders=(15,))),
                ("order 2 of two, and the bytes end", small_receipt(order=2)[:121]),
                ("the last byte is missing", one[:-1])]
    yield from [("a byte behind it", one + b"\0"), ("three bytes behind it", one + b"SMR"),
                ("four bytes behind it that are no mark", one + bytes(4)),
                ("the second ends in its header", one + one[:76]),
                ("the second is a bundle", one + small_bundle()),
                ("the second has one general, and is of another run", one + with_byte(two, 6, 1)),
                ("the second is of another run", one + small_receipt(header=header_of(network_of(2, choice=1)))),
                ("the second is of another run, and the bytes end behind its header", one + two[:78]),
                ("the third is of another slot", two + two + small_receipt(2, 2)),
                ("general 2 of two in the second", one + small_receipt(general=2))]


def small_vectors() -> Iterable[Vector]:
    """Receipts that read and don't hold, and each fault of such a file."""
    good = [("one receipt", small_receipt()), ("one in slot 1 of version 2", small_receipt(2, 1)),
            ("two receipts", small_receipt(general=0) + small_receipt()),
            ("no order in the set, and no entry", small_receipt(orders=(), order=0, entries=0)),
            ("the most entries", small_receipt(orders=(0, 1), entries=2 ** 64 - 1))]
    for about, data in good:
        yield command(f"{about}, whose signatures don't verify", "receipts", data)
    for about, data in receipt_faults():
        yield command(about, "receipts", data)
    yield command("a fault, where somebody is accused", "accuse --receipts --general 0", small_receipt()[:-1])
    yield command("a bundle, where receipts are wanted", "accuse --receipts --general 0", small_bundle())
    yield command("receipts, where a bundle is wanted", "accuse --general 0", small_receipt())
    yield command("the receipt of a bundle of which nothing is shown", "receipt --general 0", small_bundle())
    yield command("a bundle with a fault", "receipt --general 0", small_bundle()[:-1])
    yield command("a campaign", "receipt --general 0", several(small_bundle(2, 1)))


# Receipts of examples/split.bundle, in which general 0 gives two orders and one traitor is planned for.


def split_receipts() -> List[List[Piece]]:
    """The receipt of each general: the end of its log stands in the bundle."""
    data = file_bytes(SPLIT)
    bundle = read_bundle(data)
    front = 4 + len(bundle.header.spell())
    pieces: List[List[Piece]] = []
    for general in range(3):
        receipt = receipt_in(bundle, general)
        assert receipt is not None
        said = receipt.spell(bundle.header)
        end = data.index(receipt.signature) + len(receipt.signature)
        rest = len(said) - front - 41
        pieces.append([b"SMR1".hex(), {"file": SPLIT, "from": 4, "to": front}, said[front:front + 41].hex(),
                       {"file": SPLIT, "from": end - rest, "to": end}])
    return pieces


def bent(receipt: Sequence[Piece]) -> List[Piece]:
    """A receipt with another last byte."""
    last = receipt[-1]
    assert isinstance(last, dict)
    return [*receipt[:-1], {**last, "to": last["to"] - 1}, bytes([file_bytes(SPLIT)[last["to"] - 1] ^ 1]).hex()]


def claiming(receipt: Sequence[Piece], general: int) -> List[Piece]:
    """A receipt as that of another general."""
    told = receipt[2]
    assert isinstance(told, str)
    return [*receipt[:2], bytes([general]).hex() + told[2:], *receipt[3:]]


def split_vectors() -> Iterable[Vector]:
    """What the receipts of three generals show, of which one traitor is planned for."""
    whole: List[Piece] = [{"file": SPLIT}]
    for general in (0, 1, 2, 3, 15):
        yield command(f"the receipt of general {general}", f"receipt --general {general}", whole)
    zero, one, two = split_receipts()
    cases = [("all three", [zero, one, two]), ("two of one order", [two, one]), ("one alone", [one]),
             ("two of different orders", [zero, one]), ("one of them twice: one general", [one, one]),
             ("one holds, and one has another last byte", [one, bent(two)]),
             ("all three, and one more that fails", [zero, bent(zero), one, two]),
             ("that of general 2 as general 0's", [one, claiming(two, 0)])]
    for about, receipts in cases:
        yield command(f"receipts of {SPLIT}: {about}", "receipts", [piece for receipt in receipts for piece in receipt])
    yield command("one head alone convicts nobody", "accuse --receipts --general 1", [*one, *one, *bent(one), *two])
    yield command("nothing against who is no general of the run", "accuse --receipts --general 3", [*one, *two])


# Receipts of runs that scripts tell.


def run_of(**more: object) -> Tuple[Vector, bytes]:
    """The run of three generals that all are neighbours, as a piece, and its bundle."""
    run: Vector = {"words": ["run"], "text": text_of(scenario_lines(3, TRIANGLE, seed=ZEROS, **more))}
    return run, output_of(run)


def receipt_by(general: int, *pieces: Piece) -> Piece:
    """The receipt of a general's log in a bundle of these pieces."""
    return {"words": ["receipt", "--general", str(general)], "input": list(pieces)}


def log_piece(run: Vector, data: bytes, exhibit: int) -> Piece:
    """The log of an exhibit of a run."""
    log = read_bundle(data).exhibits[exhibit].data
    begin = data.index(log)
    return {**run, "from": begin, "to": begin + len(log)}


def two_heads() -> List[Piece]:
    """Receipts of a run in which general 1 seals two logs: those of generals 0 and 2, and both of general 1."""
    run, data = run_of(traitors=1, slot=2, scripts={1: ["twohead"]})
    end = 4 + len(read_header(Cursor(data[4:], "H9"), None).spell())
    header: List[Piece] = [{**run, "from": 4, "to": end}]
    second: Dict[str, Sequence[Piece]] = {"HEADER": header, "LOG": [log_piece(run, data, 2)]}
    bundle: Piece = {"words": ["bundle", "HEADER", "1=LOG"], "files": second}
    return [receipt_by(0, run), receipt_by(1, run), receipt_by(1, bundle), receipt_by(2, run)]


def run_vectors() -> Iterable[Vector]:
    """Receipts that show two orders, and receipts that convict."""
    split, _ = run_of(scripts={0: ["make 1 1 1 0", "make 1 2 0 0"]})
    apart = [receipt_by(general, split) for general in range(3)]
    yield command("more than 0 generals for each of two orders", "receipts", apart)
    yield command("one of them twice", "receipts", apart[:1] + apart[:1])
    heads = two_heads()
    zero, one, other, two = heads
    yield command("both heads of general 1, and those of all others", "receipts", heads)
    yield command("the same in another order", "receipts", [other, two, one, zero])
    for general in range(3):
        yield command(f"what two heads hold against general {general}", f"accuse --receipts --general {general}", heads)
    yield command("the second head first", "accuse --receipts --general 1", [other, zero, one, one])
    found: Piece = {"words": ["accuse", "--receipts", "--general", "1"], "input": heads}
    yield command("two heads by receipts: the evidence holds", "evidence", [found])


def exhibit_vectors() -> Iterable[Vector]:
    """Of which of several exhibits a receipt is."""
    run, data = run_of(traitors=1, scripts={1: ["twohead"]})
    end = 4 + len(read_header(Cursor(data[4:], "H9"), None).spell())
    first, second, foreign = (log_piece(run, data, exhibit) for exhibit in (1, 2, 3))
    assert isinstance(second, dict)
    files: Dict[str, Sequence[Piece]] = {"HEADER": [{**run, "from": 4, "to": end}], "FIRST": [first], "SECOND": [second],
                                         "OTHER": [foreign], "NONE": ["00"], "CUT": [{**second, "to": second["to"] - 1}, "ff"]}
    for about, words in [("of two logs the first", "1=FIRST 1=SECOND"), ("the other first", "1=SECOND 1=FIRST"),
                         ("behind bytes that are no log", "1=NONE 1=SECOND"),
                         ("behind a log whose head doesn't verify", "1=CUT 1=FIRST"),
                         ("behind a log of another general", "0=FIRST 1=OTHER 1=FIRST"),
                         ("a log of another general alone", "1=OTHER")]:
        shown = words.split(" ")
        named = ["HEADER"] + sorted({word[2:] for word in shown})
        bundle: Piece = {"words": ["bundle", "HEADER", *shown], "files": {name: files[name] for name in named}}
        yield command(f"the receipt of general 1: {about}", "receipt --general 1", [bundle])


def receipt_vectors() -> Iterable[Vector]:
    """All of these."""
    yield from small_vectors()
    yield from split_vectors()
    yield from run_vectors()
    yield from exhibit_vectors()

"""Vectors of states, identities, openings, systems and admissions, of the commands that make these, of the run that is next, and of
admitted runs."""

from __future__ import annotations

from typing import Callable, Dict, Iterable, List, Optional, Sequence, Tuple

from model.bundle import Bundle, spell_campaign
from model.clock import MOST_RUNS, Timetable
from model.evidence import Evidence, Head, Signed, TwoTexts
from model.faults import Cursor
from model.identity import Identity, NumberedState, Roots, enroll, next_state, read_opening, read_roots, spell_opening
from model.network import Header
from model.system import FIRST, TURNS, Admission, System, read_system

from .parts import Piece, Vector, command, command_of_files, packed, reading, with_byte
from .receipts import small_receipt
from .small import network_of
from .texts import LINE, scenario_lines, text_of

SYSTEM_ID = "ab" * 32


# States.


def state_vectors() -> Iterable[Vector]:
    """The records of states, with the seeds of their sets."""
    for secret in (bytes(32), bytes(range(32))):
        for number in (0, 1, 5):
            state = NumberedState(0, secret, bytes.fromhex(SYSTEM_ID)).advance_to(number)
            seed = state.seed(state.system)
            assert seed is not None
            yield {"about": f"the state of set {number}", "secret": secret.hex(), "system": SYSTEM_ID, "set": number,
                   "result": {"record": state.spell().hex(), "seed of the set": seed.hex(),
                              "next state": next_state(state.state).hex()}}


# Identities and openings. No key has these roots: a root is one byte 32 times, which says the node and the set.


def roots_of(node: int, levels: int = 1, version: int = 1) -> Roots:
    """The roots of a node."""
    return Roots(version, tuple(bytes([128 + 16 * node + number]) * 32 for number in range(2 ** levels)))


def roots_fields(data: bytes) -> Vector:
    """The fields of a file of roots."""
    roots = read_roots(data)
    return {"version": roots.version, "levels": roots.levels, "leaf of set 0": roots.rows()[0][0].hex(),
            "identity": roots.identity().spell().hex()}


def roots_faults() -> Iterable[Tuple[str, bytes]]:
    """Bytes that are no file of roots."""
    two = roots_of(0).spell()
    return [("no bytes", b""), ("three bytes of a mark", b"SMI"), ("three bytes that are none", b"abc"),
            ("another mark", b"SMI3" + two[4:]), ("it ends behind the mark", two[:4]),
            ("21 levels, and the bytes end", b"SMI1\x15"), ("it ends behind the levels", two[:5]),
            ("its last byte is missing", two[:-1]), ("the roots of one set more are missing", with_byte(two, 4, 2)),
            ("a byte is left over", two + b"\0"), ("a root is left over", with_byte(two, 4, 0))]


def identity_vectors() -> Iterable[Vector]:
    """Files of roots with their identities, each fault of one, and files that are made of secrets."""
    for levels in (0, 1, 3):
        for version in (1, 2):
            data = roots_of(0, levels, version).spell()
            yield reading(f"a file of {len(data)} bytes, of {levels} levels, version {version}", data, roots_fields)
    yield command("the identity over two roots", "identity", roots_of(0).spell())
    for about, data in roots_faults():
        yield command(about, "identity", data)
    for words in ("enroll --levels 0", "enroll --levels 1 --workers 2", "enroll --tall --levels=0"):
        yield command("a secret of 32 zero bytes", words, bytes(32))
    yield command("and its identity", "identity", [{"words": ["enroll", "--levels", "1"], "input": packed(bytes(32))}])
    for count in (0, 31, 33):
        yield command(f"a secret of {count} bytes", "enroll --levels 20", bytes(count))
    yield from resumed_vectors()


def resumed_vectors() -> Iterable[Vector]:
    """Roots behind their beginning, and behind bytes that are no beginning of them."""
    whole = enroll(bytes(32), 1, 1).spell()
    for count in (0, 4, 5, 36, 37, 40, len(whole) - 1, len(whole)):
        yield resumed(f"behind {count} bytes", "enroll --levels 1", whole[:count])
    for about, front in (("another mark", b"SMI2" + whole[4:]), ("another number of levels", with_byte(whole, 4, 0)),
                         ("a byte is left over", whole + b"\0"), ("another root that is not whole", with_byte(whole[:20], 19, 0)),
                         ("another last whole root", with_byte(whole[:-1], 5, 0)), ("another last byte", with_byte(whole, -1, 0))):
        yield resumed(about, "enroll --levels 1", front)
    yield resumed("another first root, which is not looked at", "enroll --levels 1", with_byte(whole, 5, 0))
    yield resumed("trees of another height", "enroll --levels 1 --tall", whole)


def resumed(about: str, words: str, front: bytes) -> Vector:
    """A secret of 32 zero bytes, enrolled behind a front."""
    return command_of_files(about, f"{words} --resume front secret", {"secret": packed(bytes(32)), "front": packed(front)})


def opening_reader(identity: Identity, index: int, root: bytes) -> Callable[[bytes], Vector]:
    """What reads an opening in front of bytes, and says whether it opens an identity."""

    def read(data: bytes) -> Vector:
        cursor = Cursor(data, "O1")
        siblings = read_opening(cursor)
        return {"siblings": len(siblings), "bytes behind it": len(cursor.rest()), "opens": identity.opens(index, root, siblings)}

    return read


def opening(about: str, identity: Identity, index: int, root: bytes, data: bytes) -> Vector:
    """What bytes read as where an opening of a set is awaited."""
    fields = {"identity": identity.spell().hex(), "index": index, "root": root.hex()}
    return reading(about, data, opening_reader(identity, index, root), **fields)


def opening_vectors() -> Iterable[Vector]:
    """Openings that open, openings that do not, and each fault of one."""
    for levels in (0, 1, 3):
        roots = roots_of(0, levels)
        for index in sorted({0, 2 ** levels - 1, 2 ** levels // 2}):
            about = f"set {index} of {2 ** levels}"
            yield opening(about, roots.identity(), index, roots.roots[index], spell_opening(roots.opening(index)))
    roots = roots_of(0, 3)
    identity, root, siblings = roots.identity(), roots.roots[5], roots.opening(5)
    whole = spell_opening(siblings)
    cases = [("another set", 4, root, whole), ("another root", 5, roots.roots[4], whole),
             ("a set that the identity does not have", 13, root, whole),
             ("bytes behind it", 5, root, whole + b"\0\1"), ("another last byte", 5, root, with_byte(whole, -1, 0)),
             ("a sibling too few", 5, root, spell_opening(siblings[:2])),
             ("a sibling too many", 5, root, spell_opening(siblings + (bytes(32),))),
             ("20 siblings", 5, root, spell_opening((bytes(32),) * 20)), ("no bytes", 5, root, b""),
             ("its last byte is missing", 5, root, whole[:-1]), ("21 siblings, and the bytes end", 5, root, b"\x15")]
    for about, index, shown, data in cases:
        yield opening(about, identity, index, shown, data)
    lower = Identity(2, identity.top)
    yield opening("the same top with another number of levels", lower, 5, root, whole)


# Systems.


def tops(nodes: int, levels: int, version: int) -> Tuple[bytes, ...]:
    """The tops of the identities of so many nodes."""
    return tuple(roots_of(node, levels, version).identity().top for node in range(nodes))


def system_of(version: int = 1, proposer: int = FIRST, levels: int = 1, nodes: int = 2,
              edges: Optional[Sequence[Tuple[int, int]]] = None, diameter: int = 1) -> System:
    """A system of nodes with the roots above."""
    header = Header(version, 0, network_of(nodes, edges, diameter=diameter), tops(nodes, levels, version))
    return System(header, proposer, levels, bytes(31) + b"\7")


def line_system(version: int, proposer: int) -> System:
    """A system of three nodes in a line."""
    return system_of(version, proposer, nodes=3, edges=LINE, diameter=2)


def system_fields(data: bytes) -> Vector:
    """The fields of a system."""
    system = read_system(data)
    return {"version": system.header.version, "nodes": system.nodes, "proposer": system.proposer, "levels": system.levels,
            "context": system.context.hex(), "runs": system.sets * system.runs_of_set, "id": system.id.hex()}


def system_faults() -> Iterable[Tuple[str, bytes]]:
    """Bytes that are no system."""
    one, two = system_of().spell(), system_of(2).spell()
    equal = one[:45] + one[13:45] + one[77:]
    yield from [("no bytes", b""), ("three bytes of the mark", b"SMS"), ("three bytes that are none", b"abc"),
                ("another mark", b"SMS2" + one[4:]), ("it ends behind the mark", one[:4]), ("it ends in an identity", one[:76]),
                ("it ends behind the header", one[:77]), ("the header is of version 3, and the bytes end", b"SMS1\3"),
                ("one general", with_byte(one, 5, 1)), ("one order", with_byte(one, 8, 1)),
                ("slot 4", with_byte(two, 5, 4)), ("slot 1", with_byte(two, 5, 1)),
                ("slot 1, and the bytes end behind the header", with_byte(two, 5, 1)[:78])]
    yield from [("two equal identities", equal), ("two equal identities, and the bytes end behind the header", equal[:77]),
                ("two equal identities in slot 1", with_byte(two, 5, 1)[:46] + two[14:46] + two[78:]),
                ("proposer 2", with_byte(one, 77, 2)), ("proposer 2, and the bytes end", with_byte(one, 77, 2)[:78]),
                ("it ends behind the proposer", one[:78]), ("21 levels", with_byte(one, 78, 21)),
                ("proposer 2 and 21 levels", with_byte(with_byte(one, 77, 2), 78, 21)),
                ("its last byte is missing", one[:-1]), ("a byte is left over", one + b"\0")]


def run_reader(run: int) -> Callable[[bytes], Vector]:
    """What says which nodes the generals of a run of a system are, and who is a neighbour of whom."""

    def read(data: bytes) -> Vector:
        system = read_system(data)
        return {"set": system.set_of(run), "slot": system.slot_of(run),
                "nodes": [system.node_of(run, general) for general in range(system.nodes)],
                "edges": [list(edge) for edge in system.net_of(run).edges]}

    return read


def system_vectors() -> Iterable[Vector]:
    """Systems with their ids and their runs, and each fault of one."""
    for version in (1, 2):
        for proposer in (FIRST, TURNS):
            system = line_system(version, proposer)
            about = f"three nodes, version {version}, of which {'each' if proposer else 'node 0'} proposes"
            yield reading(about, system.spell(), system_fields)
    for levels in (0, 20):
        yield reading(f"{levels} levels", with_byte(system_of().spell(), 78, levels), system_fields)
    for about, data in system_faults():
        yield reading(about, data, system_fields)
    for version, runs in ((1, (0, 1)), (2, (0, 1, 2, 7))):
        for proposer in (FIRST, TURNS):
            for run in runs:
                data = line_system(version, proposer).spell()
                yield reading(f"run {run}, version {version}, proposer {proposer}", data, run_reader(run), run=run)


# Systems of texts.


def header_lines(nodes: int = 2, edges: Sequence[Tuple[int, int]] = ((0, 1),), roots: Sequence[str] = (),
                 **more: int) -> List[str]:
    """The lines of the text of a header, whose roots are the tops of identities."""
    shown = roots or [top.hex() for top in tops(nodes, 1, 1)]
    return scenario_lines(nodes, edges, **more)[:-2] + [f"root {digits}" for digits in shown] + ["end"]


def other_line(at: int, *lines: str) -> str:
    """The text of a header of two nodes with other lines at the number of one, counted from 1."""
    pair = header_lines()
    pair[at - 1:at] = lines
    return text_of(pair)


def text_faults() -> Iterable[Tuple[str, str]]:
    """Texts that make no system."""
    pair, digits = text_of(header_lines()), "0" * 64
    one, other = (line.split(" ")[1] for line in header_lines()[6:8])
    yield from [("no text", ""), ("no line feed at the end", pair[:-1]), ("no line end", other_line(9)),
                ("an identity too few", other_line(8)), ("an identity too many", other_line(9, f"root {one}", "end")),
                ("the word identity", other_line(7, f"identity {one}")),
                ("a number with a leading zero", other_line(1, "generals 02")),
                ("a network with an edge twice", other_line(2, "edge 0 1", "edge 1 0")),
                ("an identity of 66 digits, with its levels", other_line(8, f"root 01{other}")),
                ("an identity with a letter that is no digit", other_line(8, f"root {other[1:]}g")),
                ("bytes behind the line end", pair + "end\n"), ("a tab", pair.replace("root ", "root\t", 1)),
                ("two equal identities, whose digits are of other cases", other_line(8, f"root {one.upper()}")),
                ("three nodes, of which two have the same identity",
                 text_of(header_lines(3, LINE, [f"1{digits[1:]}", digits, digits], diameter=2)))]


def text_vectors() -> Iterable[Vector]:
    """Texts that make systems, and each fault of one."""
    pair, line = text_of(header_lines()), text_of(header_lines(3, [(2, 1), (1, 0)], diameter=2))
    agreed = f"--context {'aB' * 32}"
    for more in ("", " --turns", " --tall", " --turns --tall"):
        yield command(f"three nodes in a line,{more or ' without flags'}", f"system --levels 1 {agreed}{more}", line)
    for levels in (0, 20):
        yield command(f"two nodes, {levels} levels", f"system {agreed} --levels={levels}", pair)
    yield command("the context is zeros", f"system --levels 3 --context={'0' * 64}", pair)
    for about, text in text_faults():
        yield command(about, f"system --levels 1 {agreed}", text)
    yield command("a text with a fault, in version 2", f"system --levels 1 --tall {agreed}", other_line(8))


# Admissions.


def admission_of(system: System, number: int) -> Admission:
    """The admission of a set of a system of nodes with the roots above."""
    roots = [roots_of(node, system.levels, system.header.version) for node in range(system.nodes)]
    return Admission(system, number, tuple(it.roots[number] for it in roots), tuple(it.opening(number) for it in roots))


def admission_faults() -> Iterable[Tuple[str, bytes]]:
    """Bytes that are no admission, and admissions that do not hold, of set 1 of two nodes."""
    one = admission_of(system_of(), 1).spell()
    front = 4 + len(system_of().spell())
    yield from [("no bytes", b""), ("three bytes of the mark", b"SMA"), ("three bytes that are none", b"abc"),
                ("another mark", b"SMA2" + one[4:]), ("it ends behind the mark", one[:4]),
                ("it ends in the mark of the system", b"SMA1abc"), ("another mark of the system", with_byte(one, 7, 0)),
                ("it ends in the header", one[:40]), ("one order", with_byte(one, 12, 1)),
                ("slot 1", b"SMA1" + with_byte(admission_of(system_of(2), 1).spell()[4:], 5, 1)),
                ("two equal identities", one[:49] + one[17:49] + one[81:]), ("proposer 2", with_byte(one, 81, 2)),
                ("21 levels", with_byte(one, 82, 21)), ("it ends in the context", one[:front - 1])]
    yield from [("it ends in the number of the set", one[:front + 3]),
                ("set 2 of two, and the bytes end", with_byte(one, front + 3, 2)[:front + 4]),
                ("set 65536 of two", with_byte(one, front + 1, 1)), ("it ends in a root", one[:front + 35]),
                ("it ends behind a root", one[:front + 36]),
                ("no siblings, and the bytes end", with_byte(one, front + 36, 0)[:front + 37]),
                ("two siblings, and the bytes end", with_byte(one, front + 36, 2)[:front + 37]),
                ("two siblings of the second node", with_byte(one, -33, 2)),
                ("it ends in a sibling", one[:front + 60]), ("its last byte is missing", one[:-1]),
                ("a byte is left over", one + b"\0")]
    yield from [("another root", with_byte(one, front + 4, 0)), ("another sibling of the second node", with_byte(one, -1, 0)),
                ("the roots of another set", with_byte(one, front + 3, 0)),
                ("a byte is left over, and it would not hold", with_byte(one, -1, 0) + b"\0")]


def admit_vectors() -> Iterable[Vector]:
    """Headers of runs of admissions, and each fault of an admission."""
    for version, number, runs in ((1, 1, (1,)), (2, 1, (4, 5, 7))):
        for proposer in (FIRST, TURNS):
            for run in runs:
                admission = admission_of(line_system(version, proposer), number).spell()
                about = f"run {run}, version {version}, proposer {proposer}"
                header: Piece = {"words": ["admit", "--number", str(run)], "input": packed(admission)}
                yield command(f"the header of {about}", "show", [header])
                yield command(about, f"admit --number {run}", admission)
    for number in (0, 1, 7):
        admission = admission_of(system_of(levels=3, proposer=TURNS), number).spell()
        yield command(f"run {number} of eight", f"admit --number={number}", admission)
    whole = admission_of(system_of(2), 1).spell()
    for run in (0, 3, 8, 4_294_967_295):
        yield command("a run of another set", f"admit --number {run}", whole)
    yield command("a run of another set, of an admission that does not hold", "admit --number 0", with_byte(whole, -1, 0))
    for about, data in admission_faults():
        yield command(about, "admit --number 1", data)
    yield command("the text of a header", "admit --number 0", text_of(header_lines()))


def made(about: str, words: str, system: bytes, **roots: bytes) -> Vector:
    """The admission of a system and of files of roots by their names."""
    files: Dict[str, Sequence[Piece]] = {"SYSTEM": packed(system), **{name: packed(data) for name, data in roots.items()}}
    return command_of_files(about, f"admission {words}", files)


def gathered_faults() -> Iterable[Tuple[str, str]]:
    """Words of `admission` that name other files than those of a system of two nodes, of which C is not whole."""
    yield from [("a run that the system does not have", "--number 2 SYSTEM 0=A 1=B"),
                ("the last run that has a number", "--number 4294967295 SYSTEM 0=A 1=B"),
                ("no such run, and no file", "--number 2 SYSTEM"), ("no file", "--number 0 SYSTEM"),
                ("node 1 is missing", "--number 0 SYSTEM 0=A"), ("node 1 twice", "--number 0 SYSTEM 0=A 1=B 1=B"),
                ("a file more, and one that is not whole", "--number 0 SYSTEM 0=C 1=B 2=B"),
                ("the nodes in another order", "--number 0 SYSTEM 1=B 0=A"),
                ("node 0 twice", "--number 0 SYSTEM 0=A 0=B"), ("node 2 of two", "--number 0 SYSTEM 0=A 2=B"),
                ("node 15 of two", "--number 0 SYSTEM 15=A 1=B")]
    yield from [("the roots of the other", "--number 0 SYSTEM 0=B 1=A"), ("the roots of node 0 twice", "--number 1 SYSTEM 0=A 1=A"),
                ("roots that are not whole, and node 1 is missing behind them", "--number 0 SYSTEM 0=C 2=B"),
                ("node 0 is missing, and roots that are not whole", "--number 0 SYSTEM 1=C 1=B"),
                ("the roots of the other, and roots that are not whole", "--number 0 SYSTEM 0=B 1=C"),
                ("roots that are not whole, and the roots of the other", "--number 0 SYSTEM 0=C 1=A")]


def admission_vectors() -> Iterable[Vector]:
    """Admissions that are made, and each fault of their parts."""
    system, tall = system_of(), system_of(2, TURNS)
    one, two = (roots_of(node).spell() for node in range(2))
    for run in (0, 1):
        yield made(f"the set of run {run}", f"--number {run} SYSTEM 0=A 1=B", system.spell(), A=one, B=two)
    yield made("the option behind the files", "SYSTEM 0=A 1=B --number 1", system.spell(), A=one, B=two)
    slots = {name: roots_of(node, version=2).spell() for node, name in enumerate("AB")}
    for run in (3, 4, 7, 8):
        yield made(f"the set of run {run}, of version 2", f"--number {run} SYSTEM 0=A 1=B", tall.spell(), **slots)
    three = {name: roots_of(node).spell() for node, name in enumerate("ABC")}
    yield made("three nodes in a line", "--number 1 SYSTEM 0=A 1=B 2=C", line_system(1, TURNS).spell(), **three)
    for about, words in gathered_faults():
        yield made(about, words, system.spell(), A=one, B=two, C=one[:-1])
    both = "--number 0 SYSTEM 0=A 1=B"
    yield made("roots of version 1, where the system is of version 2", both, system_of(2).spell(), A=one, B=two)
    yield made("roots of version 2, where the system is of version 1", both, system.spell(), A=one, B=slots["B"])
    yield made("roots of another number of levels", both, system.spell(), A=one, B=roots_of(1, 0).spell())
    other = Roots(1, (roots_of(1).roots[0], bytes(32))).spell()
    yield made("another root of a set that is not shown", both, system.spell(), A=one, B=other)
    yield made("a fault of the system, and of the roots", both, system.spell()[:-1], A=b"", B=two)
    yield made("bytes behind the system", both, system.spell() + b"\0", A=one, B=two)
    yield made("a fault of the system, and no such run", "--number 9 SYSTEM", with_byte(system.spell(), 77, 2))
    for about, data in roots_faults():
        yield made(f"roots of node 1: {about}", both, system.spell(), A=one, B=data)


# Admitted runs.


def inputs_of(header: Header) -> Iterable[Tuple[str, str, bytes]]:
    """Inputs of the run of a header with the commands that read them, in which no signature verifies."""
    bundle = Bundle(header, (), (), ()).spell()
    heads = [Signed(Head(entries, bytes(32)), bytes(header.signature_length)) for entries in (2, 3)]
    evidence = Evidence(header, 0, TwoTexts(*heads)).spell()
    yield from [("show", "a header", header.spell()), ("audit", "a bundle", bundle), ("show", "a bundle", bundle),
                ("evidence", "evidence", evidence), ("show", "evidence", evidence),
                ("receipts", "a receipt", small_receipt(header=header))]


def of_admission(about: str, words: str, admission: bytes, given: bytes) -> Vector:
    """A command on an input beside an admission."""
    return command_of_files(about, f"{words} --admission ADMISSION INPUT", {"ADMISSION": packed(admission), "INPUT": packed(given)})


def told_vectors() -> Iterable[Vector]:
    """Inputs of runs that an admission shows."""
    for version, run in ((1, 1), (2, 7)):
        for proposer in (FIRST, TURNS):
            shown = admission_of(line_system(version, proposer), 1)
            for name, what, given in inputs_of(shown.header_of(run)):
                about = f"{what} of run {run}, version {version}, proposer {proposer}"
                for more in ("", " --json"):
                    yield of_admission(about, name + more, shown.spell(), given)
    shown = admission_of(line_system(2, FIRST), 1)
    for runs in ((6,), (4, 7), (4, 5, 6, 7)):
        given = spell_campaign([Bundle(shown.header_of(run), (), (), ()) for run in runs])
        for words in ("audit", "audit --json", "show", "show --json", "audit --faulty 1 --strict"):
            yield of_admission(f"a campaign of the runs {runs}", words, shown.spell(), given)
    for words in (f"show --system {shown.system.id.hex()}", f"show --json --system={shown.system.id.hex().upper()}"):
        yield of_admission("of a system that is named", words, shown.spell(), shown.header_of(5).spell())


def unadmitted_vectors() -> Iterable[Vector]:
    """Faults of an admission beside an input, and inputs of other runs."""
    shown, other = (admission_of(line_system(2, FIRST), number) for number in range(2))
    whole, bad, system = shown.spell(), with_byte(shown.spell(), -1, 0), f"show --system {'0' * 64}"
    header, bundle = shown.header_of(0), Bundle(shown.header_of(0), (), (), ())
    changed = Header(2, 1, network_of(3, LINE, diameter=2, orders=3), header.roots)
    both = spell_campaign([bundle, Bundle(changed, (), (), ())])
    yield from [of_admission("another system is named", system, whole, header.spell()),
                of_admission("another system is named, and the run is of another set", system, whole, other.header_of(4).spell()),
                of_admission("another system is named, and the admission does not hold", system, bad, header.spell()),
                of_admission("the admission does not hold, and the input is none", "audit", bad, b""),
                of_admission("no admission", "audit", b"", bundle.spell()),
                of_admission("bytes behind the admission", "audit", whole + b"\0", bundle.spell()),
                of_admission("the two files in each other's place", "audit", bundle.spell(), whole)]
    for name, what, given in inputs_of(other.header_of(5)):
        yield of_admission(f"{what} of a run of another set", name, whole, given)
    for about, words, given in [("a run of these roots with another network", "show", changed.spell()),
                                ("a campaign with such a run", "audit", both),
                                ("bytes behind a header", "show", header.spell() + b"\0"),
                                ("a bundle that ends early", "audit", bundle.spell()[:-1]),
                                ("a bundle that ends early", "show", bundle.spell()[:-1]),
                                ("no bytes", "evidence", b""), ("a header", "audit", header.spell()),
                                ("a list with a general that is none", "audit --faulty 3", bundle.spell()),
                                ("such a list, and a run of another set", "audit --faulty 3",
                                 Bundle(other.header_of(5), (), (), ()).spell()),
                                ("a bundle", "receipts", bundle.spell())]:
        yield of_admission(about, words, whole, given)


# The next run.


def next_run_vectors() -> Iterable[Vector]:
    """Which run a node begins next, by times of less than 2^53, which each reader of JSON takes."""
    start, period, last = 1_798_761_600_000, 1000, MOST_RUNS - 1
    end = start + last * period
    for about, now, mark in (("before the start", start - 1, None), ("at the start", start, None), ("just behind the start", start + 1, None),
                             ("at run 7", start + 7 * period, None), ("just behind run 7", start + 7 * period + 1, None),
                             ("run 6 was begun", start + 7 * period, 6), ("run 7 was begun", start + 7 * period, 7),
                             ("the clock was set back", 0, 7), ("the clock stands before 1970", -period, 7),
                             ("a run was left out", start + 9 * period, 7), ("at the last run", end, 7),
                             ("the last run is left", start, last - 1), ("behind the last run", end + 1, 7),
                             ("the last run was begun", start, last), ("a mark that no run has", start, last + 1)):
        found = Timetable(start, period).next_run(now, mark)
        yield {"about": f"the next run: {about}", "now": now, "start": start, "period": period, "mark": mark,
               "result": found and {"run": found[0], "begins": found[1]}}


def identity_case_vectors() -> Iterable[Vector]:
    """All of these."""
    yield from state_vectors()
    yield from next_run_vectors()
    yield from identity_vectors()
    yield from opening_vectors()
    yield from system_vectors()
    yield from text_vectors()
    yield from admit_vectors()
    yield from admission_vectors()
    yield from told_vectors()
    yield from unadmitted_vectors()

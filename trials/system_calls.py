"""The library for C beside the program: calls for identities, systems and admissions, and calls that judge with an admission.

What is made has the same bytes, lines and statuses, and facts of the id of the system and of the nodes of each run.
"""
import os
import shutil
import struct
import tempfile

from bends import bend_bytes
from draws import Draws
from exported import ARCHIVE, Native, build_shared
from identities import System, digest
from node_calls import Node, bundle_of
from nodes import Library
from processes import try_with_library
from programs import run

SEED = "system calls"
SYSTEMS, JUDGED, BENT = 24, 6, 8
OK, NO, MISUSE, FAULT, _, _, NOBODY, OTHER = range(8)
FACT_BYTES, KIND_OF_SYSTEM, KIND_OF_NODE = 88, 10, 11
OTHER_SYSTEM = b"fault A11"
OTHERS = b"fault R1", OTHER_SYSTEM
ANSWER = ("answer", 0)


def facts_in(data):
    """The facts in these bytes that tell runs of a system: (the kind, the place, the general, the node, the number, the id)."""
    rows = [struct.unpack_from("<12IQ32s", data, at) for at in range(0, len(data), FACT_BYTES)]
    return [(it[0], it[1], it[2], it[3], it[4], it[13]) for it in rows]


def run_facts(place, number, system_id, nodes):
    """The facts of a run of a system."""
    of_nodes = [(KIND_OF_NODE, place, general, node, 0, bytes(32)) for general, node in enumerate(nodes)]
    return [(KIND_OF_SYSTEM, place, 0, 0, number, system_id), *of_nodes]


class Calls:
    """A system as it is drawn, made by the calls of the library and by the commands of the program."""

    def __init__(self, program, native, tally, number):
        self.program, self.native, self.tally = program, native, tally
        self.draws = Draws(f"{SEED} {number}")
        self.system, self.name = System(self.draws), f"system {number}"
        self.version = 2 if self.system.is_tall else 1
        self.context = self.system.some_bytes()
        self.nodes = lambda run_number: [self.system.node_of(run_number, it) for it in range(self.system.nodes)]

    def same(self, name, call, words, given=b"", facts=()):
        """What a call answers, which has to be what the program writes: bytes and facts, unless these are None; or the line of a fault."""
        end = run(self.program, words, given)
        status, length, held = self.native.end(*call, ANSWER)
        text, behind = held[: max(length, 0)], facts_in(held[max(length, 0) :])
        behind = list(facts or ()) if facts is None and end.status == OK else behind
        wanted = (OK, end.wrote, list(facts or ())) if end.status == OK else (FAULT, end.said.removesuffix(b"\n"), [])
        self.tally.hold(f"{self.name}, {name}", None if (status, text, behind) == wanted else f"{(status, text[:99], behind)}"[:300])
        return text

    def told(self, name, call, wanted):
        """What a call answers: its number, and the text that is held."""
        status, length, held = self.native.end(*call, ANSWER)
        got = status, held[:length] if length >= 0 else None
        self.tally.hold(f"{self.name}, {name}", None if got == wanted else f"{got}"[:300])

    def bent(self, name, data, call, words):
        """Bent inputs, and none: the line of the fault, or what is made of them."""
        for number in range(BENT):
            given = b"" if number == 0 else data + b"x" if number == 1 else bend_bytes(self.draws, data)
            status, length, held = self.native.end(*call(given), ANSWER)
            end = run(self.program, words, given)
            wanted = (OK, end.wrote) if end.status == OK else (FAULT, end.said.removesuffix(b"\n"))
            self.tally.hold(f"{self.name}, {name}, bent {number}", None if (status, held[:length]) == wanted else f"{(status, held[:99])}")

    def go(self):
        """The whole way, from secrets to headers."""
        levels = self.system.levels
        enroll = lambda given: ("sm_enroll", ("number", self.version), ("number", levels), ("input", given))
        words = ["enroll", "--levels", str(levels), *self.system.tall()]
        for secret in self.system.secrets:
            self.system.roots.append(self.same("enroll", enroll(secret), words, secret))
            top = self.same("identity", ("sm_identity", ("input", self.system.roots[-1])), ["identity"], self.system.roots[-1])
            self.system.tops.append(bytes.fromhex(top.decode()))
        self.bent("secret", secret, enroll, words)
        self.bent("roots", self.system.roots[0], lambda given: ("sm_identity", ("input", given)), ["identity"])
        self.make_system(levels)
        self.make_admission()
        self.make_headers()

    def make_system(self, levels):
        turns = int(self.system.in_turns) * (1 + self.draws.below(1 << 31))
        front = ("number", self.version), ("number", levels), ("number", turns), ("fixed", self.context)
        call = lambda given: ("sm_system", *front, ("input", given))
        words = ["system", "--levels", str(levels), "--context", self.context.hex(), *self.system.tall(), *(["--turns"] if turns else [])]
        text = self.system.text()
        made = run(self.program, words, text).wrote
        self.id = digest(b"\x44" + made)
        self.system.bytes = self.same("system", call(text), words, text, [(KIND_OF_SYSTEM, 0, 0, 0, 0, self.id)])
        for given in (b"", text[:-1], text + b"x", self.system.text([self.system.tops[0]] * self.system.nodes)):
            self.same("a bad text", call(given), words, given)
        for version, few in ((0, 0), (3, 0), (self.version, 21), (self.version, 1 << 31)):
            numbers = ("number", version), ("number", few)
            self.told("no version or levels", ("sm_system", *numbers, *front[2:], ("input", text)), (MISUSE, None))
            self.told("no version or levels of a secret", ("sm_enroll", *numbers, ("input", bytes(32))), (MISUSE, None))

    def admission_of(self, name, number, system, files, facts=()):
        """The admission of files, each with its node, from their own folder."""
        with tempfile.TemporaryDirectory() as folder:
            words = []
            for at, data in enumerate([system, *(file for _, file in files)]):
                words.append(os.path.join(folder, str(at)))
                with open(words[-1], "wb") as kept:
                    kept.write(data)
            own = [f"{node}={path}" for (node, _), path in zip(files, words[1:])]
            call = "sm_admission", ("number", number), ("input", system), ("files", files)
            return self.same(name, call, ["admission", "--number", str(number), words[0], *own], facts=facts)

    def make_admission(self):
        system, files = self.system, list(enumerate(self.system.roots))
        facts = [(KIND_OF_SYSTEM, 0, 0, 0, system.run, self.id)]
        system.admission = self.admission_of("admission", system.run, system.bytes, files, facts)
        self.admission_of("no such run", system.run_count, system.bytes, files)
        self.admission_of("a cut system", system.run, system.bytes[:-1], files)
        self.admission_of("few files", system.run, system.bytes, files[:-1])
        self.admission_of("other order", system.run, system.bytes, files[::-1])
        self.admission_of("other roots", system.run, system.bytes, [(node, system.roots[0]) for node, _ in files])
        self.admission_of("bad roots", system.run, system.bytes, [*files[:-1], (files[-1][0], b"SMI3")])
        front = "sm_admission", ("number", system.run), ("input", system.bytes)
        for node in (16, 17, 1 << 31):
            self.told("no node", (*front, ("files", [*files[:-1], (node, files[-1][1])])), (MISUSE, None))
        self.told("no files", (*front, ("files", [])), (FAULT, b"fault A9"))

    def admit(self, number, given, wanted=b""):
        """The words of the call that makes the header of a run."""
        return "sm_admit", ("number", number), ("input", given), ("input", wanted)

    def make_headers(self):
        system = self.system
        first = system.run // system.runs_of_set * system.runs_of_set
        for number in range(max(0, first - 1), first + system.runs_of_set + 1):
            is_own = first <= number < first + system.runs_of_set
            facts = run_facts(0, number, self.id, self.nodes(number)) if is_own else []
            for wanted in (b"", self.id):
                words = ["admit", "--number", str(number)]
                self.same(f"header of run {number}", self.admit(number, system.admission, wanted), words, system.admission, facts)
        other = bytes([self.id[0] ^ 1]) + self.id[1:]
        self.told("another system", self.admit(system.run, system.admission, other), (OTHER, OTHER_SYSTEM))
        for length in (1, 31, 33, 64):
            self.told("no id", self.admit(system.run, system.admission, bytes(length)), (MISUSE, None))
        admit = lambda given: self.admit(system.run, given)
        self.bent("admission", system.admission, admit, ["admit", "--number", str(system.run)])


# With an admission in the options.


def bundle_by(library, of, number):
    """The bundle of a run of a system, played by the library of nodes with the seeds of its set. Nobody is faulty."""
    header = run(of.program, ["admit", "--number", str(number)], of.system.admission).wrote
    nodes = [Node(library) for _ in range(of.system.nodes)]
    for general, node in enumerate(of.nodes(number)):
        state = of.system.secrets[node]
        for _ in range(number // of.system.runs_of_set):
            state = digest(b"\x41" + state)
        nodes[general].begin(header, general, digest(b"\x40" + state), 1 if general == 0 else 255)
    for _ in range(of.system.numbers["traitors"] + of.system.numbers["diameter"]):
        for node in nodes:
            node.call("begin_round")
        for sender, node in enumerate(nodes):
            for receiver in (it for it in range(of.system.nodes) if node.number("awaits", it)):
                nodes[receiver].hear(sender, node.text("send", receiver))
        for node in nodes:
            node.call("end_round")
    logs = [(general, node.end()[0]) for general, node in enumerate(nodes)]
    for node in nodes:
        node.__exit__()
    # The walks of a network of few edges may be too long; then the bundle has none.
    return bundle_of(library, header, 0, logs, parted=1)


def asked_words(folder, admission, system):
    """The words of the program for an admission and a system's id."""
    path = os.path.join(folder, "admission")
    with open(path, "wb") as kept:
        kept.write(admission)
    return ["--admission", path, *(["--system", system.hex()] if system else [])]


def judged(of, name, words, front, given, admission, system, form=0, receipts=0):
    """A call that judges with an admission, beside the program: the text or bytes, and the line of a fault."""
    with tempfile.TemporaryDirectory() as folder:
        end = run(of.program, [*words, *asked_words(folder, admission, system)], given)
    options = b"", 0, form, receipts, admission, system
    status, length, held = of.native.end(name, *front, ("input", given), ("options", options), ANSWER)
    line = end.said.partition(b"\n")[0]
    wanted = (end.status, end.wrote) if end.status < FAULT else (OTHER if line in OTHERS else FAULT, line)
    of.tally.hold(f"{of.name}, {' '.join(words)}", None if (status, held[:length]) == wanted else f"{(status, held[:99])}"[:300])
    return status, facts_in(held[length:])


def try_judged(of, library):
    """All calls with options on a bundle of a run and on what comes of it, of the own admission and of others."""
    number, system = of.system.run, of.system
    bundle = bundle_by(library, of, number)
    receipt = run(of.program, ["receipt", "--general", "0"], bundle).wrote
    cases = [(["audit"], "sm_audit", [], bundle), (["draw"], "sm_draw", [], bundle), (["show"], "sm_show", [], bundle)]
    cases += [(["accuse", "--general", "0"], "sm_accuse", [("number", 0)], bundle), (["receipts"], "sm_receipts", [], receipt * 2)]
    cases += [(["receipt", "--general", "0"], "sm_receipt", [("number", 0)], bundle), (["evidence"], "sm_evidence", [], bundle)]
    other_id = bytes([of.id[0] ^ 1]) + of.id[1:]
    for words, name, front, given in cases:
        for json in ([0, 1] if name in ("sm_audit", "sm_show", "sm_receipts") else [0]):
            asked = words + ["--json"] * json
            for wanted in (b"", of.id):
                status, facts = judged(of, name, asked, front, given, system.admission, wanted, json)
                told = run_facts(0, number, of.id, of.nodes(number))
                right = facts[: len(told)] == told if status in (OK, NO) else not facts
                of.tally.hold(f"{of.name}, facts of {name}", None if right else f"{status} {facts[:3]}")
            judged(of, name, asked, front, given, system.admission, other_id, json)
            judged(of, name, asked, front, given, system.admission[:-1], b"", json)
            judged(of, name, asked, front, b"x", system.admission, b"", json)
            judged(of, name, asked, front, bundle[:-1], system.admission, of.id, json)
        for options in ((bytes(32), 0, 0, 0, system.admission), (b"", 0, 0, 0, b"", of.id), (b"", 0, 0, 0, system.admission, bytes(31))):
            of.told(f"{name}, misuse", (name, *front, ("input", given), ("options", options)), (MISUSE, None))
    if system.levels:
        files = list(enumerate(system.roots))
        other_set = of.admission_of("another set", (number + system.runs_of_set) % system.run_count, system.bytes, files, None)
        for words, name, front, given in cases[:6]:
            judged(of, name, words, front, given, other_set, of.id)
    options = (b"", 0, 0, 0, system.admission)
    of.told("no general", ("sm_accuse", ("number", 15), ("input", bundle), ("options", options)), (NOBODY, None))


def trials(program, tally):
    if not os.path.exists(ARCHIVE) or not shutil.which("cc"):
        tally.note("left out: cc or crates/sm_embed/out/libsm_embed.a is not there")
        return
    with tempfile.TemporaryDirectory() as folder:
        native = Native(build_shared(folder))
        every = [Calls(program, native, tally, number) for number in range(SYSTEMS)]
        for of in every:
            of.go()
        tally.count(SYSTEMS)
        try_with_library(tally, lambda own: [try_judged(of, Library(own)) for of in every[:JUDGED]])

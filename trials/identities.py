"""Identities and systems: the whole way from secrets to the headers of runs, by the program and by the reference beside it.

A case is a system of 2 to 5 nodes, as it is drawn: its network, the height of its trees, 0 to 3 levels, and who proposes. Secrets
become files of roots, these become identities, the text of a header becomes a system, and that becomes an admission, from which
the headers of the runs of a set come. Each command is asked of both, and standard output, standard error and status are the same.
Beside that the ids are hashes that are made here. The roots are those that `root` makes of the seeds of the sets. The header of a
run is the one that `header` makes of the text of the run's own network. Each command that takes an admission gets inputs of runs of
the system (admitted.py). Then each fault of each input comes, with bent inputs and words that ask for nothing. An enroll that is
killed leaves a front of its file, which `--resume` ends, and a terminal is told how far it came.
"""
import collections
import contextlib
import hashlib
import multiprocessing
import os
import re
import subprocess
import tempfile
from concurrent.futures import ProcessPoolExecutor

from admitted import Beside
from bends import bend_bytes
from devices import on_terminal
from differs import POINTER, day
from drawn import draw_edges, option, shuffled, spoil_text
from draws import Draws
from programs import End, count_cores, differs, run, side_by_side, spell
from reference import answer
from scenarios import scenario_lines, spell_lines

COMMANDS = ("enroll", "identity", "system", "admission", "admit")
# So many systems are drawn, in jobs of so many. Of each there are so many bent inputs of each kind.
SYSTEMS, SHARE, BENT = 96, 4, 3
# Where the parts of a file of roots, and of a system from its end, begin.
ROOTS, PROPOSER, LEVELS = 5, -34, -33
# The roots of so many sets are written at once.
PIECE = 256
CONTEXT = "aB" * 32
ENROLL, ADMIT = ["enroll", "--levels", "0"], ["admit", "--number", "0"]
SYSTEM = ["system", "--levels", "0", "--context", CONTEXT]
# What is said of the values of options that are bad, and words that have one.
TAKES = {
    "--levels takes a number from 0 to 20": [
        *(["enroll", f"--levels={it}"] for it in ("21", "00", "01", "+1", "99", "256", "x", " 1", "1 ", "\u0661")),
        ["enroll", "--levels", "21", "--workers", "0"], ["system", "--levels", "21", "--context", "0"]],
    "--workers takes a number from 1 to 16": [[*ENROLL, "--workers", it] for it in ("0", "17", "01")],
    "--context takes 64 hexadecimal digits": [
        [*SYSTEM[:4], it] for it in ("0" * 63, "0" * 65, "0" * 66, "g" + "0" * 63, "0" * 63 + "\n", "\u0661" * 64)],
    "--system stands beside --admission alone": [
        ["audit", "--system", "0" * 64], ["show", "--system=0", "a"], ["receipt", "--system", "x", "--run", "0" * 64, "--general", "0"]],
    "--run and --admission do not stand together": [
        ["audit", "--admission", "a", "--run", "0" * 64, "b"], ["evidence", "--run=" + "0" * 64, "--admission=-", "--system", "x"],
        ["accuse", "--receipts", "--general", "0", "--run", "0" * 64, "--admission", "a"]],
    "--system takes 64 hexadecimal digits": [
        ["audit", "--admission", "a", f"--system={it}", "b"] for it in ("", "0" * 63, "0" * 65, "g" + "0" * 63, "0" * 63 + "\n")],
    "--number takes the number of a run": [
        *(["admit", f"--number={it}"] for it in ("4294967296", "00", "01", "+1", "x", "1.0", "9" * 30, "0x1", "1_0", "\u0661")),
        ["admission", "--number", "4294967296", "-", "16=-"]],
}
# Words that ask for nothing, of which the line is not fixed, and words that ask for help.
NOTHING = [["enroll"], ["enroll", "--levels"], [*ENROLL, "--levels", "1"], [*ENROLL, "a", "b"], [*ENROLL, "--print-id"],
           [*ENROLL, "--tall=1"], [*ENROLL, "--tall", "--tall"], [*ENROLL, "--json"], ["identity", "a", "b"],
           [*ENROLL, "--resume"], [*ENROLL, "--resume", "-"], [*ENROLL, "--resume", "-", "-"], ["identity", "--resume", "a"],
           ["identity", "--tall"], ["identity", "--levels", "1"], SYSTEM[:3], ["system", *SYSTEM[3:]]]
NOTHING += [[*SYSTEM, "--workers", "1"], [*SYSTEM, "--turns=1"], [*SYSTEM, "--slot", "0"], ["admission"], ["admission", "a"],
            ["admission", "--number", "0"], ["admit"], ["admit", "a"], [*ADMIT, "a", "b"], [*ADMIT, "--json"],
            [*ADMIT, "--number", "0"], ["header", "--number", "0"], ["Enroll"], ["admit", "-x"]]
BAD_FILES = [["b"], ["16=b"], ["x=b"], ["=b"], ["01=b"], ["-1=b"], ["0=b", "1"]]
NOTHING += [["admission", "--number", "0", "a", *words] for words in BAD_FILES]
NOTHING += [["receipts", "--run", "0", "--admission", "a", "--system", "0"], ["accuse", "--general", "16", "--admission", "a", "--system", "0"]]
NOTHING += [["enroll", "--levels="], ["enroll", "--levels", ""], [*SYSTEM[:4], ""], ["admit", "--number="]]
NOTHING += [["admission", "--number", "0", "-", "0=-"], ["admission", "--number", "0", "a", "0=-", "1=-"]]
NOTHING += [[it, "--admission"] for it in ("audit", "draw", "evidence", "show", "receipts")]
NOTHING += [["show", "--admission", "-"], ["show", "--admission=-", "-"], ["audit", "--admission", "-x", "a"], ["judge", "--admission", "a"]]
NOTHING += [["show", "--admission", "a", "--admission", "a", "b"], ["admit", "--number", "0", "--system", "0" * 64], ["plan", "--admission", "a"]]
HELPS = [["--help"], ["enroll", "--levels", "21", "-h"], *(["help", it] for it in COMMANDS), *([it, "--help"] for it in COMMANDS)]
# The faults that have to come.
FAULTS = ["G1", "G2", "A8", "A9", "A10", "P1", "P2", "P3", "P4 H2", "P6", "P10", "P11", "P12", *(f"I{it}" for it in range(1, 6))]
FAULTS += [*(f"U{it}" for it in (1, 2, 4, 5, 6, 7, 8)), "U3 H6", "U3 H10", *(f"A{it}" for it in (1, 2, 4, 5, 6, 7))]
FAULTS += [*(f"A3 U{it}" for it in (2, 4, 5, 6, 7)), "A3 U3 H6", "A11", "R1"]
# The commands that take an admission, each of which has to come with an input of its set.
BESIDE = ("audit", "draw", "accuse", "evidence", "show", "receipt", "receipts")


def digest(text):
    return hashlib.sha256(text).digest()


def seed_of(secret, number):
    """The seed of a set of a secret."""
    for _ in range(number):
        secret = digest(b"\x41" + secret)
    return digest(b"\x40" + secret)


def with_bytes(data, place, new):
    """The bytes with others at a place, which is counted from the end if it is less than 0."""
    place %= len(data)
    return data[:place] + new + data[place + len(new) :]


class System:
    """A system as it is drawn, and what is made of it on the way."""

    def __init__(self, draws):
        self.draws, self.nodes, self.levels = draws, 2 + draws.below(4), draws.below(4)
        self.is_tall, self.in_turns = draws.below(2) == 1, draws.below(2) == 1
        self.edges = draw_edges(draws, self.nodes)
        self.numbers = {"traitors": draws.below(3), "diameter": 1 + draws.below(3), "orders": draws.one_of([2, 3, 15]),
                        "choice": draws.below(2)}
        self.secrets = [self.some_bytes() for _ in range(self.nodes)]
        self.runs_of_set = 4 if self.is_tall else 1
        self.run_count = self.runs_of_set << self.levels
        self.roots, self.tops, self.bytes, self.admission, self.run = [], [], b"", b"", draws.below(self.run_count)

    def some_bytes(self):
        """32 bytes."""
        return digest(f"{self.draws.seed} {self.draws.below(1 << 60)}".encode())

    def tall(self):
        """The flag of the height."""
        return ["--tall"] if self.is_tall else []

    def text(self, tops=None, edges=None):
        """The text of a header with these roots, or with the tops of the identities."""
        lines = scenario_lines(self.nodes, edges or self.edges, **self.numbers)[:-2]
        return spell_lines([*lines, *(f"root {it.hex()}" for it in tops or self.tops), "end"])

    def general_of(self, number, node):
        """Which general of a run a node is."""
        return (node - number) % self.nodes if self.in_turns else node

    def node_of(self, number, general):
        """Which node a general of a run is."""
        return (number + general) % self.nodes if self.in_turns else general

    def root(self, node, at):
        """The root of a set of a node."""
        return self.roots[node][ROOTS + 32 * at :][:32]

    def text_of_run(self, number):
        """The text of the header of a run: its edges join the generals whose nodes are joined."""
        edges = [tuple(self.general_of(number, node) for node in edge) for edge in self.edges]
        at = number // self.runs_of_set
        return self.text([self.root(self.node_of(number, general), at) for general in range(self.nodes)], edges)


class Case:
    """A system on its way, in a folder of its own. It says what is wrong, and counts what was asked."""

    def __init__(self, program, number, folder):
        self.program, self.folder, self.draws = program, folder, Draws(f"identities {day()} {number}")
        self.number, self.system, self.files = number, System(self.draws), 0
        self.wrong, self.counts = [], collections.Counter()

    def hold(self, name, wrong):
        self.counts["held"] += 1
        if wrong is not None:
            self.wrong.append(f"system {self.number}, {name}: {wrong}")

    def file(self, data):
        """The name of a new file with these bytes."""
        self.files += 1
        path = os.path.join(self.folder, f"{self.files}.bytes")
        with open(path, "wb") as kept:
            kept.write(data)
        return path

    def asked(self, words, given=b"", wanted=None):
        """What the reference answers, which the program answers too. If a fault is told, it has to be that."""
        got, want = run(self.program, words, given), answer(words, given)
        self.counts["runs"] += 1
        self.hold(spell(words), differs(got, want))
        if wanted is not None:
            self.hold(spell(words), differs(want, End(3, b"", f"fault {wanted}\n".encode())))
        if want.status == 3:
            told = want.said.decode().split(" line ")[0].split()[1:]
            self.counts[" ".join(it for it in told if not it.isdigit() and it not in ("generals", "node"))] += 1
        return want

    def over(self, words, data, wanted=None):
        """The same of a command of one input, which is standard input or a file, whose name stands anywhere behind the command."""
        way = self.draws.below(3)
        if way == 0:
            return self.asked([*words, "-"] if self.draws.below(2) else words, data, wanted)
        file = self.file(data)
        return self.asked([words[0], file, *words[1:]] if way == 1 else [*words, file], b"", wanted)

    def only(self, words, given=b""):
        """What the program alone writes."""
        self.counts["runs"] += 1
        return run(self.program, words, given).wrote

    # The way.

    def go(self):
        """The whole way."""
        for node in range(self.system.nodes):
            self.enroll(node)
        self.make_system()
        self.make_admission()
        at = self.system.run // self.system.runs_of_set
        for number in range(at * self.system.runs_of_set, (at + 1) * self.system.runs_of_set):
            self.admit(number)

        Beside(self, seed_of).go()

    def system_id(self):
        """The id of the system, in digits."""
        return digest(b"\x44" + self.system.bytes).hex()

    def enroll(self, node):
        """The file of roots of a node, and its identity. One root is that of the seed of its set."""
        system, draws = self.system, self.draws
        secret = system.secrets[node]
        words = ["enroll", *option(draws, "levels", system.levels), *system.tall()]
        workers = option(draws, "workers", 1 + draws.below(16)) if draws.below(2) else []
        system.roots.append(self.over([*words, *workers], secret).wrote)
        at = draws.below(1 << system.levels)
        made = self.only(["root", *system.tall()], seed_of(secret, at))
        self.hold(f"the root of set {at}", None if made == system.root(node, at).hex().encode() + b"\n" else f"{made}")
        system.tops.append(bytes.fromhex(self.over(["identity"], system.roots[node]).wrote.decode()))

    def make_system(self):
        """The system, with its id where that is asked for."""
        system, draws = self.system, self.draws
        context = system.some_bytes().hex()
        parts = [option(draws, "levels", system.levels), option(draws, "context", draws.one_of([context, context.upper()])),
                 ["--turns"] if system.in_turns else [], system.tall(), ["--print-id"] if draws.below(2) else []]
        self.words_of_system = ["system", *(word for part in shuffled(draws, parts) for word in part)]
        end = self.over(self.words_of_system, system.text())
        system.bytes = end.wrote
        self.hold("the id", self.wrong_id(self.words_of_system, end))

    def wrong_id(self, words, end):
        """None where the id of the system was printed if and only if that was asked for."""
        wanted = self.system_id().encode() + b"\n" if "--print-id" in words else b""
        return None if end.said == wanted else f"{end.said}, not {wanted}"

    def words_of_admission(self, number, files, named=None):
        """The words that ask for an admission. The files of roots are of the nodes in their order, or of those that are named."""
        places = [f"{node}={file}" for node, file in zip(range(len(files)) if named is None else named, files)]
        names, words = [self.file_of_system, *places], option(self.draws, "number", number)
        words += ["--print-id"] if self.draws.below(3) == 0 else []
        at = self.draws.below(len(names) + 1)
        return ["admission", *names[:at], *words, *names[at:]]

    def make_admission(self):
        """The admission of the set of a run. One of the files may be standard input."""
        system = self.system
        self.file_of_system, self.files_of_roots = self.file(system.bytes), [self.file(it) for it in system.roots]
        files, way = list(self.files_of_roots), self.draws.below(system.nodes * 3)
        if way < system.nodes:
            files[way] = "-"
        words = self.words_of_admission(system.run, files)
        end = self.asked(words, system.roots[way] if way < system.nodes else b"")
        system.admission = end.wrote
        self.hold("the id", self.wrong_id(words, end))
        length = 8 + len(system.bytes) + system.nodes * (33 + 32 * system.levels)
        self.hold("the length of an admission", None if len(end.wrote) == length else f"{len(end.wrote)}, not {length}")

    def admit(self, number):
        """The header of a run, which is the one that is made of the run's own text."""
        system = self.system
        words = ["admit", *option(self.draws, "number", number), *(["--print-id"] if self.draws.below(2) else [])]
        end = self.over(words, system.admission)
        self.hold("the id", self.wrong_id(words, end))
        slot = ["--slot", str(number % 4)] if system.is_tall else []
        made = self.only(["header", *slot], system.text_of_run(number))
        self.hold(f"the header of run {number}", None if made == end.wrote else f"{end.wrote.hex()}, and of its text {made.hex()}")

    # Faults.

    def fail(self):
        """Each fault of each input, and inputs that are bent."""
        for part in (self.resume, self.bad_secrets, self.bad_roots, self.bad_texts, self.bad_systems, self.bad_files, self.bad_admissions,
                     self.bent, self.not_there):
            part()

    def resume(self):
        """What is missing behind a front of a file of roots, and fronts that are of no such file. Roots before the last whole one
        are not looked at."""
        system, draws = self.system, self.draws
        whole, secret = system.roots[0], system.secrets[0]
        words = ["enroll", *option(draws, "levels", system.levels), *system.tall(), "--resume"]
        for count in {0, 4, ROOTS, ROOTS + 31, ROOTS + 32, len(whole) - 1, len(whole), *(draws.below(len(whole)) for _ in range(BENT))}:
            end = self.over([*words, self.file(whole[:count])], secret)
            self.hold(f"the roots behind {count} bytes", None if end.wrote == whole[count:] else f"{end.wrote}")
        last = ROOTS + 32 * ((len(whole) - ROOTS) // 32 - 1)
        count = ROOTS + 16 + draws.below(len(whole) - ROOTS - 15)
        bad = [system.roots[1][:count], whole + b"\0", whole + whole, b"SMI3" + whole[4:count], with_bytes(whole, 4, b"\x15")[:count],
               with_bytes(whole, last, bytes([whole[last] ^ 1])), with_bytes(whole, -1, bytes([whole[-1] ^ 1])), b"S\0"]
        for front in bad:
            self.asked([*words, self.file(front), self.file(secret)], b"", "I5")
        self.over([*words, self.file(bad[0])], secret[:31], "G1")
        self.over([*words, self.file(bend_bytes(draws, whole[:count]))], secret)
        if last > ROOTS:
            self.asked([*words, "-", self.file(secret)], with_bytes(whole, ROOTS, bytes([whole[ROOTS] ^ 1])))

    def bad_secrets(self):
        secret = self.system.secrets[0]
        for data in (b"", secret[:31], secret + b"\0"):
            self.over(["enroll", "--levels", "20", *self.system.tall()], data, "G1")

    def bad_roots(self):
        """Faults of a file of roots, by itself and as that of the last node."""
        last, whole = self.system.nodes - 1, self.system.roots[-1]
        cases = [("I1", b""), ("I1", whole[:3]), ("I1", whole[:4]), ("I1", whole[:-1]), ("I2", b"SMI3" + whole[4:]),
                 ("I3", with_bytes(whole, 4, b"\x15")), ("I4", whole + b"\0")]
        for wanted, data in cases:
            self.over(["identity"], data, wanted)
            self.asked(self.words_of_admission(self.system.run, [*self.files_of_roots[:last], self.file(data)]), b"", wanted)

    def bad_texts(self):
        system = self.system
        text, tops = system.text(), system.tops
        lines = text.split(b"\n")[:-1]
        first, count = text.index(b"root "), len(lines)
        cases = [("P1 line 1", b""), (f"P1 line {count}", text[:-1]), (f"P2 line {count}", text[:-4] + b"root 0\nend\n"),
                 (f"P2 line {count - system.nodes}", text[:first] + b"identity" + text[first + 4 :]),
                 ("P3 line 1", b"generals 0" + text[9:]), (f"P6 line {count - 1}", text[:-6] + b"g\nend\n"),
                 (f"P10 line {count + 1}", text + b"\0"), ("P11 line 1", b"generals " + b"2" * 600_000 + b"\n"),
                 (f"P12 line {count}", text[:-1] + b"\t\n")]
        for wanted, bad in cases:
            self.over(self.words_of_system, bad, wanted)
        edges = system.edges or [(0, 1)]
        twice = system.text(edges=[*edges, edges[0][::-1]])
        self.over(self.words_of_system, twice, f"P4 H2 line {len(twice.splitlines()) - system.nodes - 1}")
        self.over(self.words_of_system, system.text([*tops[:-1], tops[0]]), f"G2 generals 0 {system.nodes - 1}")

    def systems_with_faults(self):
        """Systems with a fault each, from that of the mark to that of the levels. U4 is of version 2 alone."""
        whole = self.system.bytes
        numbers = 6 if self.system.is_tall else 5
        top = PROPOSER - 32 * self.system.nodes
        yield from [("U2", b"SMS2" + whole[4:]), ("U3 H10", with_bytes(whole, 4, b"\3")),
                    ("U3 H6", with_bytes(whole, numbers + 3, b"\1"))]
        if self.system.is_tall:
            yield "U4", with_bytes(whole, 5, b"\1")
        yield from [("U5", with_bytes(whole, PROPOSER - 32, whole[top : top + 32])), ("U6", with_bytes(whole, PROPOSER, b"\2")),
                    ("U7", with_bytes(whole, LEVELS, b"\x15"))]

    def bad_systems(self):
        """Faults of a system, with its files of roots or without."""
        whole = self.system.bytes
        kept = self.file_of_system
        cases = [*self.systems_with_faults(), ("U1", b""), ("U1", whole[:3]), ("U1", whole[:-1]), ("U8", whole + b"\0")]
        for wanted, data in cases:
            self.file_of_system = self.file(data)
            files = self.files_of_roots if self.draws.below(2) else []
            self.asked(self.words_of_admission(self.system.run, files), b"", wanted)
        self.file_of_system = kept

    def bad_files(self):
        """No such run, files that are not one for each node, and files that are of other identities."""
        system, files, last = self.system, self.files_of_roots, self.system.nodes - 1
        for number in (system.run_count, 2**32 - 1):
            self.asked(self.words_of_admission(number, files[: self.draws.below(len(files) + 1)]), b"", "A8")
        named = list(range(system.nodes))
        cases = [(named[:-1], files[:-1]), ([], []), ([*named, last], [*files, files[0]]), (named[::-1], files[::-1]),
                 ([*named[:-1], 15], files), ([0, 0, *named[2:]], files)]
        for some, kept in cases:
            self.asked(self.words_of_admission(system.run, kept, some), b"", "A9")
        self.asked(self.words_of_admission(system.run, [files[1], files[0], *files[2:]]), b"", "A10 node 0")
        own = system.roots[last]
        others = [own[:3] + (b"1" if system.is_tall else b"2") + own[4:], own[:4] + bytes([system.levels + 1]) + own[5:] * 2,
                  with_bytes(own, -1, bytes([own[-1] ^ 1])), system.roots[0]]
        for data in others:
            self.asked(self.words_of_admission(system.run, [*files[:last], self.file(data)]), b"", f"A10 node {last}")

    def bad_admissions(self):
        """Faults of an admission, and runs that are not of its set."""
        system, whole = self.system, self.system.admission
        words, front = ["admit", "--number", str(system.run)], 4 + len(system.bytes)
        cases = [("A1", b""), ("A1", whole[:3]), ("A1", whole[: front + 3]), ("A1", whole[:-1]), ("A2", b"SMA2" + whole[4:]),
                 *((f"A3 {wanted}", b"SMA1" + data + whole[front:]) for wanted, data in self.systems_with_faults()),
                 ("A4", with_bytes(whole, front, (1 << system.levels).to_bytes(4, "big"))),
                 ("A5", with_bytes(whole, front + 36, bytes([system.levels + 1]))), ("A6", whole + b"\0"),
                 ("A7", with_bytes(whole, front + 4, bytes([whole[front + 4] ^ 1])))]
        for wanted, data in cases:
            self.over(words, data, wanted)
        first = system.run // system.runs_of_set * system.runs_of_set
        for number in (*range(first)[-1:], first + system.runs_of_set, 2**32 - 1):
            self.over(["admit", "--number", str(number)], whole, "A8")
        self.over(["admit", "--number", str(system.run_count)], cases[-1][1], "A7")

    def bent(self):
        """Inputs with a change that is drawn, of which the reference says what they are."""
        system, draws = self.system, self.draws
        for _ in range(BENT):
            self.over(["identity"], bend_bytes(draws, draws.one_of(system.roots)))
            self.over(self.words_of_system, spoil_text(draws, system.text()))
            self.over(["admit", "--number", str(system.run)], bend_bytes(draws, system.admission))
            kept, self.file_of_system = self.file_of_system, self.file(bend_bytes(draws, system.bytes))
            self.asked(self.words_of_admission(system.run, self.files_of_roots))
            self.file_of_system, files, at = kept, list(self.files_of_roots), draws.below(system.nodes)
            files[at] = self.file(bend_bytes(draws, system.roots[at]))
            self.asked(self.words_of_admission(draws.below(system.run_count), files))

    def not_there(self):
        """Files that are not there, or are folders: of several the first is told, before any fault."""
        missing = self.draws.one_of([os.path.join(self.folder, "nothing"), self.folder])
        for words in (["enroll", "--levels", "3"], ["identity"], self.words_of_system, ["admit", "--number", "0"]):
            self.asked([*words, missing])
        self.asked(["enroll", "--levels", "0", "--resume", missing], bytes(31))
        self.asked(["enroll", "--levels", "0", "--resume", os.path.join(self.folder, "neither"), missing])
        files = list(self.files_of_roots)
        files[self.draws.below(len(files))] = missing
        self.asked(self.words_of_admission(self.system.run, files))
        self.asked(["admission", "--number", "0", missing, f"15={os.path.join(self.folder, 'neither')}"])


def try_system(program, number):
    """One system: what is wrong, and what was counted."""
    with tempfile.TemporaryDirectory() as folder:
        case = Case(program, number, folder)
        case.go()
        if not case.wrong:
            case.fail()
        return case.wrong, case.counts


def try_systems(program, first, count):
    """Some systems, in a process of their own."""
    return [try_system(program, number) for number in range(first, first + count)]


def try_all_systems(program, tally, systems=SYSTEMS):
    """All systems, by as many processes as there are cores. Each fault has to come."""
    counts = collections.Counter()
    with ProcessPoolExecutor(count_cores(), multiprocessing.get_context("fork")) as pool:
        jobs = [pool.submit(try_systems, program, first, min(SHARE, systems - first)) for first in range(0, systems, SHARE)]
        for wrong, some in (it for job in jobs for it in job.result()):
            tally.hold("the way of a system", "; ".join(wrong[:2]) or None)
            counts.update(some)
    tally.count(counts.pop("runs"))
    missing = [it for it in [*FAULTS, *(f"{it} beside an admission" for it in BESIDE)] if not counts[it]]
    tally.hold("each fault and command", f"never {missing}" if missing else None)
    held = counts.pop("held")
    tally.note(f"seed {day()}: {held} comparisons; faults: " + ", ".join(f"{counts[it]} {it}" for it in sorted(counts)))


def try_words(program, tally):
    """Words that have a bad value, that ask for nothing, and that ask for help."""
    lines = {tuple(words): f"error: {line}; for more, try '--help'\n".encode() for line, every in TAKES.items() for words in every}
    every = [*map(list, lines), *NOTHING, *HELPS]
    ends = side_by_side(lambda it: (run(program, it), answer(it)), every)
    for words, (got, want) in zip(every, ends):
        if tuple(words) in lines:
            wrong = differs(got, End(2, b"", lines[tuple(words)])) or differs(want, got)
        elif words in HELPS:
            wrong = differs(got, want._replace(status=0))
        else:
            is_well = all((it.status, it.wrote) == (2, b"") and POINTER.fullmatch(it.said) for it in (got, want))
            wrong = None if is_well else f"{got}; the reference: {want}"
        tally.hold(spell(words), wrong)
    tally.count(len(every))


def try_terminals(program, tally):
    """Bytes are not written to a terminal, and nothing is read before that is said. An identity is."""
    for words in ([*ENROLL, "missing"], [*SYSTEM, "missing"], ["admission", "--number", "0", "missing"], [*ADMIT, "missing"]):
        end = on_terminal(program, words, b"")
        is_well = end.status == 2 and end.wrote == b"" and end.said.endswith(b"; for more, try '--help'\n")
        tally.hold(f"{spell(words)}, bytes to a terminal", None if is_well else f"{end}")
    data = b"SMI1\0" + bytes(32)
    shown = on_terminal(program, ["identity"], data)
    wanted = digest(b"\x42" + bytes(32)).hex().encode() + b"\r\n"
    tally.hold("identity, text to a terminal", differs(shown, End(0, wanted, b"")))
    tally.count(5)


def try_stopped(program, tally):
    """An enroll that is killed leaves whole pieces, behind which another one goes on, by any number of workers."""
    words, secret = ["enroll", "--levels", "11"], digest(b"stopped")
    whole = run(program, [*words, "--workers", "4"], secret).wrote
    tally.hold("the length of 2,048 roots", None if len(whole) == ROOTS + 32 * 2048 else f"{len(whole)}")
    with tempfile.TemporaryDirectory() as folder:
        kept, path = os.path.join(folder, "secret"), os.path.join(folder, "roots")
        for name, data in ((kept, secret), (path, b"")):
            with open(name, "wb") as file:
                file.write(data)
        for pieces in (2, 3):
            front = killed(program, [*words, "--resume", path, kept], pieces * 32 * PIECE)
            with open(path, "ab") as file:
                file.write(front)
            size = os.path.getsize(path)
            is_well = size < len(whole) and size % (32 * PIECE) == ROOTS and whole[size - len(front) : size] == front
            tally.hold(f"a killed enroll, {pieces} pieces", None if is_well else f"{size} bytes")
        end = run(program, [*words, "--workers", "3", "--resume", path, kept])
        tally.hold("the roots behind those of killed ones", differs(end, End(0, whole[size:], b"")))
    tally.count(4)


def killed(program, words, count):
    """What a run wrote that was killed once it had written so many bytes."""
    with subprocess.Popen([program, *words], stdout=subprocess.PIPE, stdin=subprocess.DEVNULL) as started:
        front = started.stdout.read(count)
        started.kill()
        return front + started.stdout.read()


def try_progress(program, tally):
    """A terminal at standard error is told how many sets are made, and nothing else is, and of one piece nothing."""
    secret = digest(b"told")
    for levels, resumed, wanted in ((8, 0, []), (10, 0, [256, 512, 768, 1024]), (9, ROOTS + 32 * 200, [456, 512]), (9, ROOTS + 32 * 300, [])):
        words = ["enroll", "--levels", str(levels), "--workers", "4"]
        whole = run(program, words, secret)
        with tempfile.NamedTemporaryFile() as file:
            file.write(whole.wrote[:resumed])
            file.flush()
            end, told = told_on_terminal(program, [*words, "--resume", file.name], secret)
        counts = [int(it) for it in re.findall(rb"\r(\d+) of %d sets" % (1 << levels), told)]
        is_well = (end.status, end.wrote, whole.said) == (0, whole.wrote[resumed:], b"") and counts == wanted
        tally.hold(f"{spell(words)}, told on a terminal", None if is_well and told.endswith(b"\r\n") == bool(wanted) else f"{told}")
    tally.count(8)


def told_on_terminal(program, words, given):
    """A run whose standard error is a terminal: how it ended, and what the terminal shows."""
    ours, its = os.openpty()
    try:
        try:
            end = run(program, words, given, stderr=its)
        finally:
            os.close(its)
        told = b""
        # Once nobody has the terminal open, what was written can be read, and then an error comes.
        with contextlib.suppress(OSError):
            while more := os.read(ours, 1 << 16):
                told += more
        return end, told
    finally:
        os.close(ours)


def trials(program, tally):
    if not {*COMMANDS} <= tally.commands:
        return
    for trial in tally.chosen([try_words, try_terminals, try_stopped, try_progress, try_all_systems]):
        trial(program, tally)

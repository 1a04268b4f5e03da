#!/usr/bin/env python3
"""Complete archives: examples/archive/complete.py names each run of a system that has not one bundle, which is agreed.

    trials/complete.py PROGRAM RUNS LEVELS

tries this alone, with so many runs of a system whose identities have so many levels; it tells sizes and seconds.

Four secrets become a system, its admissions and the headers of its runs by commands. In each run four nodes of
this process take the seeds of its set, and now and then its proposer is out. Their logs become bundles by `bundle`. Then bundles and admissions
are taken out, exchanged, doubled and spoilt, in a copy of the archive. The archive of nodes is crates/sm_node/out/libsm_node.a;
without it, or without a compiler, nothing is tried, and a line says so. The script reads the lines of one call over all files.
"""
import hashlib
import itertools
import json
import os
import shutil
import sys
import tempfile
import time

from node_calls import NO_ORDER, Node
from nodes import Library
from processes import try_with_library
from programs import commands_of, run, side_by_side
from scenarios import everybody, scenario_lines, spell_lines
from tally import Tally

SCRIPT = os.path.join(os.path.dirname(os.path.dirname(os.path.abspath(__file__))), "examples", "archive", "complete.py")
COMMANDS = {"enroll", "identity", "system", "admission", "admit", "bundle", "audit", "show"}
# So many runs are made of how many levels, where no other numbers are asked for.
RUNS, LEVELS = 40, 4
GENERALS, RUNS_OF_SET = 4, 4
# In each run whose number has this rest by this divisor the proposer is out.
OUT = (7, 16)
# What stands in the place of the name of a bundle of a run.
HOSTILE = {1: "two words", 2: "$(touch ran)", 3: "line\nfeed", 5: "back\\slash", 6: "\x1b[31mred"}


# What stands in front of a bundle in a campaign of one run, which is made of each run whose number has this rest.
CAMPAIGN, ALONE = b"SMC2\1", (9, 16)


def is_alone(number):
    """Whether a run stands in a campaign of its own."""
    return number % ALONE[1] == ALONE[0]


def digest(text):
    return hashlib.sha256(text).digest()


def read(path):
    with open(path, "rb") as kept:
        return kept.read()


def write(path, data):
    os.makedirs(os.path.dirname(path), exist_ok=True)
    with open(path, "wb") as kept:
        kept.write(data)


def drive(nodes, twin=None, deceived=()):
    """The logs of nodes, by their numbers, that hand on all frames in two rounds. A twin of node 0 talks to those who are deceived."""
    both = [*nodes.values(), *([twin] if twin else [])]
    for _ in range(2):
        for node in both:
            node.call("begin_round")
        for sender, to in itertools.permutations(nodes, 2):
            frame = (twin if sender == 0 and to in deceived else nodes[sender]).text("send", to)
            if nodes[to].hear(sender, frame) != 0:
                raise AssertionError(f"a frame from {sender} to {to} is refused")
        for node in both:
            node.call("end_round")
    return {general: node.end()[0] for general, node in nodes.items()}


class Numbered:
    """A system of four nodes in a folder of its own: its secrets, files of roots, admissions, and the bundles of its runs."""

    def __init__(self, program, folder, levels):
        self.program, self.folder, self.levels = program, folder, levels
        self.secrets = [digest(os.path.basename(folder).encode() + bytes([node])) for node in range(GENERALS)]
        self.id = self.make_system()

    def path(self, *names):
        return os.path.join(self.folder, *names)

    def do(self, words, given=b""):
        """What the program writes, and the last line that it says."""
        end = run(self.program, words, given)
        if end.status != 0:
            raise AssertionError(f"{words}: {end}")
        return end

    def make_system(self):
        """The files of roots and the system, and its id."""
        for node, secret in enumerate(self.secrets):
            roots = self.do(["enroll", "--levels", str(self.levels), "--tall"], secret).wrote
            write(self.path(f"{node}.roots"), roots)
        tops = [self.do(["identity", self.path(f"{node}.roots")]).wrote.decode().strip() for node in range(GENERALS)]
        lines = scenario_lines(GENERALS, everybody(GENERALS), traitors=1, diameter=1)[:-2]
        text = spell_lines([*lines, *(f"root {it}" for it in tops), "end"])
        words = ["system", "--levels", str(self.levels), "--tall", "--turns", "--context", "7" * 64, "--print-id"]
        end = self.do(words, text)
        write(self.path("system"), end.wrote)
        return end.said.decode().strip()

    def admit_set(self, number):
        """Writes the admission of a set, by the number of its first run."""
        first = number * RUNS_OF_SET
        roots = [f"{node}={self.path(f'{node}.roots')}" for node in range(GENERALS)]
        end = self.do(["admission", "--number", str(first), self.path("system"), *roots])
        write(self.path("admissions", f"{first}.admission"), end.wrote)

    def prepare(self, number):
        """Writes the header of a run, and the seeds of its generals, into a folder for its processes."""
        place = self.path(f"r{number}")
        first = number // RUNS_OF_SET * RUNS_OF_SET
        admission = self.path("admissions", f"{first}.admission")
        write(os.path.join(place, "header"), self.do(["admit", "--number", str(number), admission]).wrote)
        for general in range(GENERALS):
            state = self.secrets[(number + general) % GENERALS]
            for _ in range(number // RUNS_OF_SET):
                state = digest(b"\x41" + state)
            with open(os.open(os.path.join(place, f"{general}.seed"), os.O_CREAT | os.O_WRONLY, 0o600), "wb") as seed:
                seed.write(digest(b"\x40" + state))
        return place

    def begun(self, library, number, generals, orders):
        """Nodes of a run that have begun, each with an order or none, in a list; and the header."""
        place = self.prepare(number)
        header, *seeds = (read(os.path.join(place, it)) for it in ("header", *(f"{general}.seed" for general in generals)))
        shutil.rmtree(place)
        nodes = [Node(library) for _ in generals]
        for node, general, seed, order in zip(nodes, generals, seeds, orders):
            if node.begin(header, general, seed, order) != 0:
                raise AssertionError(f"general {general} of run {number} does not begin")
        return nodes, header

    def run(self, library, number):
        """A run of nodes, and its bundle."""
        generals = range(number % OUT[1] == OUT[0], GENERALS)
        orders = [number % 2 if general == 0 else NO_ORDER for general in generals]
        nodes, header = self.begun(library, number, generals, orders)
        logs, words = drive(dict(zip(generals, nodes))), []
        for node in nodes:
            node.__exit__()
        for general, log in logs.items():
            write(self.path(f"r{number}", f"{general}.log"), log)
            words.append(f"{general}={self.path(f'r{number}', f'{general}.log')}")
        write(self.path(f"r{number}", "header"), header)
        listed = ["--faulty", "0"] if generals[0] else []
        told = self.do(["bundle", *listed, self.path(f"r{number}", "header"), *words]).wrote
        write(self.bundle(number), (CAMPAIGN if is_alone(number) else b"") + told)
        shutil.rmtree(self.path(f"r{number}"))

    def bundle(self, number):
        """The file of the bundle of a run, or of a campaign of that run alone."""
        return self.path("archive", f"{number // 10}", f"{HOSTILE.get(number, number)}.bundle{'s' * is_alone(number)}")


class Case:
    """A copy of an archive that is changed, and what its script has to say."""

    def __init__(self, system, place, runs):
        self.system, self.place, self.runs, self.lines = system, place, runs, []
        for name in ("archive", "admissions"):
            shutil.copytree(system.path(name), os.path.join(place, name))

    def file(self, number):
        """The file of the bundle of a run."""
        return self.system.bundle(number).replace(self.system.folder, self.place, 1)

    def admission(self, number):
        return os.path.join(self.place, "admissions", f"{number}.admission")

    def audit(self):
        """Writes the lines of an audit of all files."""
        top = os.path.join(self.place, "archive")
        files = sorted(os.path.join(at, name) for at, _, names in os.walk(top) for name in names)
        listed = os.path.join(self.place, "list")
        write(listed, "".join(f"{name}\0" for name in files).encode())
        lines = run(self.system.program, ["audit", "--json", "--files-from", listed]).wrote
        write(os.path.join(self.place, "verdicts"), lines)

    def told(self, *words, env=None):
        """How the script ends."""
        places = [os.path.join(self.place, name) for name in ("verdicts", "admissions")]
        asked = [SCRIPT, *words, *places, self.system.id, "0", str(self.runs - 1)]
        return run(sys.executable, asked, cwd=self.place, env={**os.environ, "SM_TOOL": self.system.program, **(env or {})})

    def line(self, *parts, files=()):
        """A line that has to come, which may end with files."""
        self.lines.append(": ".join([*parts, *([", ".join(map(json.dumps, files))] if files else [])]).encode())

    def wrong(self):
        """None where the script says these lines, and counts, and as JSON says as many."""
        self.audit()
        end, told = self.told(), self.told("--json")
        *lines, last = end.wrote.splitlines()
        odd = {line.split(b":")[0] for line in lines if line.startswith(b"run ")}
        count = f"runs 0 to {self.runs - 1}: {self.runs - len(odd)} of {self.runs} have one bundle, which is agreed".encode()
        values = [json.loads(line) for line in told.wrote.splitlines()]
        is_well = sorted(lines) == sorted(self.lines) and last == count and (end.status, told.status) == (bool(lines),) * 2
        is_well = is_well and len(values) == len(lines) + 1 and values[-1]["agreed"] == self.runs - len(odd)
        ran = [at for at, _, names in os.walk(self.place) if "ran" in names]
        return None if is_well and not ran else f"{end}, {told.wrote[:300]}; wanted {self.lines}; a name was run in {ran}"


def take_out(case, other):
    """A bundle is taken out, and one is exchanged for that of another system."""
    os.remove(case.file(1))
    shutil.copy(other.bundle(0), case.file(2))
    case.line("run 1", "no bundle")
    case.line("run 2", "no bundle")
    case.line("of no run that is shown", files=[case.file(2)])


def double(case, _):
    """A run has two bundles, one is a no, and one file is no bundle."""
    again, junk = os.path.join(case.place, "archive", "again.bundles"), os.path.join(case.place, "archive", "z.bundle")
    shutil.copy(case.file(3), again)
    case.line("run 3", "agreed, agreed", files=[case.file(3), again])
    with open(case.file(6), "rb") as kept:
        data = kept.read()
    write(case.file(6), data[:-1] + bytes([data[-1] ^ 1]))
    case.line("run 6", "no", files=[case.file(6)])
    write(junk, b"junk")
    case.line("fault B2", files=[junk])


def without(case, number, why=None, name=None):
    """The runs of an admission are not shown, and their bundles are of no run. Its file, if it is there, has a line with why."""
    for run_of_set in range(number, number + RUNS_OF_SET):
        case.line(f"run {run_of_set}", "no admission")
        case.line("of no run that is shown", files=[case.file(run_of_set)])
    if why:
        case.line(why, files=[name])


def spoil_admissions(case, other):
    """An admission is of another system, one is gone, one does not hold, one has another name, and one the name of another set."""
    shutil.copy(other.path("admissions", "0.admission"), case.admission(0))
    without(case, 0, "of another system", "0.admission")
    os.remove(case.admission(4))
    without(case, 4)
    with open(case.admission(8), "rb") as kept:
        data = kept.read()
    write(case.admission(8), data[:-1] + bytes([data[-1] ^ 1]))
    without(case, 8, "fault A7", "8.admission")
    os.rename(case.admission(12), case.admission(14))
    os.rename(case.admission(16), case.admission(21))
    without(case, 16, "fault A8", "21.admission")


def try_words(case, tally):
    """Wrong words, and no program."""
    case.audit()
    end = case.told(env={"SM_TOOL": "/nowhere/sm_tool"})
    tally.hold("no program", None if end.status == 3 else f"{end}")
    for words in (["--jsno"], ["a"]):
        end = case.told(*words)
        tally.hold(f"words {words}", None if end.status == 2 else f"{end}")


def make_archive(program, library, folder, levels, runs):
    """A system with the bundles of its first runs."""
    system = Numbered(program, folder, levels)
    side_by_side(system.admit_set, range(-(-runs // RUNS_OF_SET)))
    side_by_side(lambda number: system.run(library, number), range(runs))
    return system


def try_archive(program, folder, tally, runs=RUNS, levels=LEVELS):
    """The archive as it is, and each change of it."""
    since, library = time.monotonic(), Library(folder)
    system = make_archive(program, library, os.path.join(folder, "a"), levels, runs)
    other = make_archive(program, library, os.path.join(folder, "b"), 0, 1)
    tally.note(f"{runs} runs in {time.monotonic() - since:.0f} s")
    for change in (None, take_out, double, spoil_admissions):
        with tempfile.TemporaryDirectory(dir="/tmp") as place:
            case, since = Case(system, place, runs), time.monotonic()
            if change is None:
                try_words(case, tally)
            else:
                change(case, other)
            tally.hold(change.__doc__ if change else "The archive as it is.", case.wrong())
            tally.note(f"said twice in {time.monotonic() - since:.1f} s")
    tally.count(runs * 16)


def trials(program, tally):
    if not COMMANDS <= tally.commands:
        tally.note(f"left out: the program has no {', '.join(sorted(COMMANDS - tally.commands))}")
        return
    try_with_library(tally, lambda folder: try_archive(program, folder, tally))


def main():
    if len(sys.argv) != 4:
        sys.exit(__doc__)
    program, (runs, levels) = os.path.abspath(sys.argv[1]), map(int, sys.argv[2:])
    tally = Tally("complete", commands_of(program))
    try_with_library(tally, lambda folder: try_archive(program, folder, tally, runs, levels))
    tally.close()
    return 1 if tally.failed else 0


if __name__ == "__main__":
    sys.exit(main())

#!/usr/bin/env python3
"""Many files in one call: `audit`, `show` and `evidence` answer each file as they answer it alone.

    trials/many_files.py PROGRAM
    trials/many_files.py reference

tries this alone, by a program, or with the reference (reference/sm.py) in the place of the program.

What a call has to write is put together of the calls on each of its files, and has to be what the reference answers. Files are
named by words and by lists. Some are whole, and some have faults, are not there, or have hostile names. Words that are wrong, and
lists that cannot be read, keep each file from being opened. The answer to a file is there before the next file is opened, and
none is opened once an answer cannot be written. So many files take no more memory than few. How long 1,000 bundles take is told.
"""
import contextlib
import os
import select
import subprocess
import sys
import tempfile
import time

from admitted import play
from devices import BROKEN, FULL, not_opened, not_read, not_written
from engines import reference_tool
from identities import seed_of
from json_texts import read_schema, wrong_lines
from layout import MARK, Bundle, with_shared_root
from model import bundle as model_bundle
from model.command import called
from model.faults import Cursor
from model.json_text import TOOL, line_of
from model.network import read_header
from programs import End, commands_of, differs, fault, run, shown
from reference import answer
from scenarios import everybody, header_text, scenario, scenario_lines, signed, spell_lines
from tally import Tally

COMMANDS = ("audit", "show", "evidence")
# Standard input in the place of a name, and a copy of the file `-`, which no word can name.
STANDARD, MINUS = None, b"the minus"
# Names that a shell, a reader of options, or a reader of lines would take for something else.
HOSTILE = [b"two words", b"line\nfeed", b"tab\there", b"-n", b"--json", b"--", b"--files-from=x", b"back\\slash", b"'quoted' \"twice\"",
           b"\x1b[31mred", b"$(touch ran)", "\u00fcn\u00ef".encode(), b"0=log", b" ", b"del\x7f", b"*", b"file x"]
# The lists that name files: written behind each name, and between names.
ENDS = ("behind", "between", "twice")
TWICE = End(2, b"", b"error: '-' stands for one file at most; for more, try '--help'\n")
NO_TEXT = End(2, b"", b"error: a word is not UTF-8; for more, try '--help'\n")
LEVELS, CONTEXT, SECRETS = "0", "7" * 64, [bytes([7]) * 32, bytes([8]) * 32]
# How long anything is waited for, in seconds.
PATIENCE = 120
# So many files take no more KiB than so few, but for so many; and so many are timed.
FEW, MANY, MORE_KIB, TIMED = 30, 3000, 2048, 1000


# Files.


def admitted_bundles():
    """An admission, and the bundles of two runs that it admits."""
    roots = [answer(["enroll", "--levels", LEVELS, "--tall"], it).wrote for it in SECRETS]
    tops = [answer(["identity"], it).wrote.decode().strip() for it in roots]
    lines = scenario_lines(2, everybody(2), traitors=0, diameter=1)[:-2]
    words = ["system", "--levels", LEVELS, "--tall", "--context", CONTEXT]
    system = answer(words, spell_lines([*lines, *(f"root {it}" for it in tops), "end"])).wrote
    with tempfile.TemporaryDirectory() as place:
        paths = written(place, dict(zip((b"system", b"0", b"1"), (system, *roots))))
        admission = answer(["admission", "--number", "0", paths[0], f"0={paths[1]}", f"1={paths[2]}"]).wrote
    seeds, made = [seed_of(it, 0) for it in SECRETS], []
    for number in (0, 2):
        header = read_header(Cursor(answer(["admit", "--number", str(number)], admission).wrote, "H9"), None)
        logs = [general.logs()[0] for general in play(header, seeds, 1)]
        exhibits = tuple(model_bundle.Exhibit(it, log.spell()) for it, log in enumerate(logs))
        made.append(model_bundle.Bundle(header, (), (), exhibits).spell())
    return admission, made


def inputs_of(program):
    """The files of a folder, by their names: whole ones, and some with faults."""
    texts = signed()
    made = {name: run(program, ["run"], texts[name]).wrote for name in ("pair", "split", "one_too_many", "late")}
    campaign = run(program, ["campaign"], b"campaign 2\n" + b"".join(signed(slot=slot)["pair"] for slot in (1, 2))).wrote
    evidence = run(program, ["accuse", "--general", "0"], made["split"]).wrote
    bundle = Bundle(made["pair"])
    del bundle.exhibits[1]
    admission, admitted = admitted_bundles()
    files = {name.encode(): data for name, data in made.items()} | {b"campaign": campaign, b"evidence": evidence}
    files |= {b"no": bundle.spell(), b"shared": with_shared_root(made["split"], 0, 2), b"fails": evidence[:-1] + bytes([evidence[-1] ^ 1])}
    files |= {b"header": made["pair"][MARK : len(Bundle(made["pair"]).front)], b"empty": b"", b"junk": b"junk", b"text": texts["pair"]}
    files |= {b"cut": made["pair"][:-1], b"cut evidence": evidence[:-1], b"frame": b"SMF1", b"header text": header_text()}
    return files | {b"admission": admission, b"admitted 0": admitted[0], b"admitted 2": admitted[1]}


def written(folder, files):
    """The paths of files with these names and bytes, which are written into a folder."""
    for name, data in files.items():
        with open(os.path.join(os.fsencode(folder), name), "wb") as kept:
            kept.write(data)
    return [os.path.join(folder, os.fsdecode(name)) for name in files]


def list_of(names, end):
    """A list of names, with zero bytes behind or between them, or with two of them in each place."""
    joined = b"\0".join(names) if end == "between" else b"".join(name + b"\0" * (1 + (end == "twice")) for name in names)
    return (b"\0" if end == "twice" else b"") + joined


# Answers.


class Call:
    """Words that ask for a job on many files, which stand behind them, and in a list: in a file, or on standard input."""

    def __init__(self, words, files=(), listed=None, end="behind", standard=b"", by="the list"):
        self.words, self.files, self.listed, self.by = list(words), list(files), listed, by
        self.names = [*self.files, *(listed or ())]
        self.list = list_of(listed, end) if listed is not None else None
        self.standard = self.list if listed is not None and by == "-" else standard

    def spelt(self):
        """All words."""
        option = [] if self.listed is None else ["--files-from", self.by]
        named = [b"-" if name is STANDARD else name for name in self.files]
        between = ["--"] if any(name is not STANDARD and name.startswith(b"-") for name in self.files) else []
        return [self.words[0], *option, *self.words[1:], *between, *named]


class Folder:
    """A folder with files, in which a program runs and the reference answers."""

    def __init__(self, program, place, tally):
        self.program, self.place, self.tally, self.known, self.schema = program, place, tally, {}, read_schema()
        self.files = inputs_of(program)
        self.write(self.files)
        os.mkdir(os.path.join(place, "folder"))

    def write(self, files):
        """Writes files, on which answers that are known are none any more."""
        written(self.place, files)
        self.known.clear()

    def run(self, words, standard=b"", **how):
        """How the program ends."""
        self.tally.count(1)
        return run(self.program, words, standard, cwd=self.place, **how)

    def alone(self, words, name, standard):
        """How the program ends on a file alone. That of the name `-` is copied to another name, which is taken for it."""
        key = (*words, name, standard)
        if key not in self.known:
            given = ["-"] if name is STANDARD else ["--", MINUS if name == b"-" else name]
            end = self.run([*words, *given], standard)
            if name == b"-":
                end = End(end.status, end.wrote.replace(MINUS, b"-"), end.said.replace(MINUS, b"-"))
            self.known[key] = end
        return self.known[key]

    def put_together(self, call):
        """How a call has to end, by those on each file alone."""
        ends = []
        for name in call.names:
            end = self.alone(call.words, name, call.standard)
            is_unnamed = end.status > 1 and end.said.count(b"\n") == 1
            told = b"the fault is in " + line_name(name) + b"\n" if is_unnamed else b""
            ends.append(End(end.status, front_of(call.words, name) + end.wrote, end.said + told))
        status = max((end.status for end in ends), default=0)
        return End(status, b"".join(end.wrote for end in ends), b"".join(end.said for end in ends))

    def by_reference(self, words, standard):
        """How the reference ends in this folder."""
        before = os.getcwd()
        os.chdir(self.place)
        try:
            return answer([os.fsdecode(word) for word in words], standard)
        finally:
            os.chdir(before)

    def hold(self, name, call):
        """A call on many files ends as is put together, and as the reference does."""
        if call.list is not None and call.by != "-":
            written(self.place, {call.by.encode(): call.list})
        words = call.spelt()
        got = self.run(words, call.standard)
        wrong = differs(got, self.put_together(call)) or differs(got, self.by_reference(words, call.standard))
        if "--json" in words:
            wrong = wrong or wrong_lines(self.schema, got.wrote)
        self.tally.hold(f"{' '.join(call.words)}, {name}", wrong)

    def ends(self, name, words, wanted, standard=b""):
        """A call ends so, and so does the reference."""
        got = self.run(words, standard)
        self.tally.hold(f"{words}, {name}", differs(got, wanted) or differs(got, self.by_reference(words, standard)))


def line_name(name):
    """What a file is called in a line."""
    return called(None if name is STANDARD else name.decode()).encode()


def front_of(words, name):
    """What stands before the answer to a file."""
    if "--json" not in words:
        return b"file " + line_name(name) + b"\n"
    value = {"format": "file", "name": None if name is STANDARD else name.decode(), "tool": TOOL, "version": 1}
    return line_of(value) if words[0] == "show" else b""


# Trials.

# Of each command files that it answers, and such as it has faults or a no for.
GOOD = {
    "audit": [b"pair", b"split", b"campaign", b"one_too_many", b"late"],
    "show": [b"pair", b"header", b"evidence", b"campaign"],
    "evidence": [b"evidence", b"evidence"],
}
BAD = [b"empty", b"junk", b"cut", b"cut evidence", b"text", b"header text", b"frame", b"missing", b"folder", b"pair/x", b"", b"no", b"shared",
       b"fails", b"header", b"admission"]
OPTIONS = {
    "audit": [["--strict"], ["--workers", "3"], ["--faulty", "0"], ["--faulty=none", "--strict"], ["--faulty", "9"]],
    "show": [], "evidence": [],
}


def try_files(folder, words):
    """Good files, files with faults, and files that are not there, in any number and order."""
    good = GOOD[words[0]]
    for name, call in {
        "several files": Call(words, good),
        "files with faults": Call(words, BAD),
        "good and bad files": Call(words, [*good[:1], *BAD[:3], *good[1:], *BAD[3:]]),
        "a file three times": Call(words, good[:1] * 3),
        "a bad file twice": Call(words, [b"junk"] * 2),
        "standard input first": Call(words, [STANDARD, *good], standard=folder.files[good[0]]),
        "standard input last": Call(words, [b"junk", *good, STANDARD], standard=folder.files[good[-1]]),
        "standard input with a fault": Call(words, [good[0], STANDARD, b"missing"], standard=b"junk"),
        "standard input of another kind": Call(words, [STANDARD, good[0]], standard=folder.files[b"text"]),
        "no standard input": Call(words, [good[0], STANDARD]),
    }.items():
        folder.hold(name, call)


def try_lists(folder, words):
    """Files that a list names: with and without files of the words, and with a list that has one name or none."""
    good = GOOD[words[0]]
    for by in ("the list", "-"):
        for end in ENDS:
            folder.hold(f"a list, zero bytes {end}", Call(words, listed=[*good, b"junk"], end=end, by=by))
        folder.hold("files and a list", Call(words, good[:2], [b"missing", *good], by=by))
        folder.hold("a list of one name", Call(words, listed=good[:1], by=by))
        folder.hold("a list of a file that is not there", Call(words, listed=[b"missing"], by=by))
        folder.hold("an empty list", Call(words, listed=[], by=by))
        folder.hold("an empty list behind a file", Call(words, good[:1], [], by=by))
        folder.hold("a list of zero bytes", Call(words, [], [], end="twice", by=by))
        folder.hold("hostile names in a list", Call(words, listed=[*HOSTILE, b"-", b"./-"], by=by))
    folder.hold("standard input and a list", Call(words, [STANDARD, good[0]], [b"-", *good], standard=folder.files[good[0]]))


def try_names(folder, words):
    """Names that look like something else."""
    data = folder.files[GOOD[words[0]][0]]
    named = dict.fromkeys([*HOSTILE, b"-", MINUS], data)
    folder.write(named)
    folder.hold("hostile names", Call(words, HOSTILE))
    folder.hold("hostile names, not there", Call(words, [name + b"?" for name in HOSTILE]))
    folder.write(dict.fromkeys(named, b"junk"))
    folder.hold("hostile names with faults", Call(words, HOSTILE))
    folder.hold("hostile names with faults in a list", Call(words, listed=[*HOSTILE, b"-"]))
    folder.write(named)


def try_options(folder, words):
    """Each option is asked of each file."""
    for options in OPTIONS[words[0]]:
        folder.hold("options", Call([*words, *options], GOOD[words[0]]))
    if words[0] == "audit":
        folder.hold("equal roots", Call([*words, "--strict"], [b"shared", b"pair", b"no"]))
    runs = run(folder.program, ["audit", "--json"], folder.files[b"split"]).wrote
    asked = ["--run", runs.decode().partition('"run":"')[2][:64]]
    folder.hold("a run", Call([*words, *asked], [b"split", b"pair", b"junk", b"evidence", b"split"], [b"fails", b"pair", b"split"]))
    admission = ["--admission", "admission"]
    several = [b"admitted 0", b"pair", b"admitted 2", b"junk", b"missing", b"admitted 0"]
    folder.hold("an admission", Call([*words, *admission], several, [b"admitted 2", b"split"]))
    folder.hold("an admission and standard input", Call([*words, *admission], [b"admitted 0", STANDARD], standard=folder.files[b"admitted 2"]))
    standard = folder.files[b"admission"]
    folder.hold("an admission from standard input", Call([*words, "--admission", "-"], several, [b"admitted 0"], standard=standard))


def try_words(folder, words):
    """Words that are wrong, and lists that cannot be read: nothing is written, and no file is opened."""
    good, listed = os.fsdecode(GOOD[words[0]][0]), "the list"
    written(folder.place, {b"the list": b"missing\0"})
    by = [*words, "--files-from"]
    for twice in (["-", "-"], ["--files-from", "-", "-"], ["--admission", "-", good, "-"], ["-", good, "-"],
                  ["--admission=-", "--files-from=-"], ["--files-from", "-", good, "--", "-"], ["--admission", "-", "--files-from", "-", good]):
        folder.ends("a minus twice", [*words, *twice], TWICE)
    for wrong in ([listed, "--files-from", listed], [], ["--json=1", listed], [listed, "--run", "0"], ["-x"], [listed, "--general", "0"],
                  ["--"], [listed, "--system", "0" * 64], [listed, "--run", "0" * 64, "--admission", "admission"]):
        end = folder.run([*by, *wrong])
        is_well = end.status == 2 and not end.wrote and end.said.endswith(b"; for more, try '--help'\n")
        folder.tally.hold(f"{[*by, *wrong]}", None if is_well else f"{end}")
    if words[0] == "audit":
        end = folder.run([*by, "missing", "--workers", "0"])
        is_well = (end.status, end.wrote) == (2, b"") and end.said.startswith(b"error: --workers takes a number from 1 to 16")
        folder.tally.hold("workers", None if is_well else f"{end}")
    lists = {"missing": not_opened("missing", "no such file"), "folder": not_read("is a folder", "folder"),
             "pair/x": not_opened("pair/x", "Not a directory (os error 20)"), "line\nfeed?": not_opened("line\\nfeed?", "no such file")}
    for name, wanted in lists.items():
        folder.ends("a list that cannot be read", [*by, name, good], wanted)
        folder.ends("an admission that cannot be read", [*by, "missing", good, "--admission", name], wanted)
    for given, wanted in {"junk": "fault A2", "empty": "fault A1", "pair": "fault A2"}.items():
        folder.ends("an admission with a fault", [*by, "missing", good, "--admission", given], fault(wanted))
        folder.ends("an admission with a fault", [*words, "--admission", given, good, good], fault(wanted))
    other = ["--admission", "admission", "--system", "0" * 64]
    folder.ends("an admission of another system", [*words, *other, good, "missing"], fault("fault A11"))
    folder.ends("no name beside an admission", [*by, "empty", "--admission", "admission"], End(0, b"", b""))
    for other in ("decide", "run", "judge", "draw", "accuse", "receipts", "receipt", "plan", "words", "identity"):
        for wrong in ([other, "a", "b"], [other, "--files-from", listed]):
            end = folder.run([*wrong, *(["--general", "0"] if other in ("accuse", "receipt") else [])])
            folder.tally.hold(f"{wrong}", None if (end.status, end.wrote) == (2, b"") else f"{end}")


# Pipes.


@contextlib.contextmanager
def started(folder, words, **how):
    """A run of the program that is ended with this, whatever happens."""
    folder.tally.count(1)
    streams = {"stdin": subprocess.DEVNULL, "stdout": subprocess.PIPE, "stderr": subprocess.PIPE, **how}
    with subprocess.Popen([folder.program, *words], cwd=folder.place, **streams) as process:
        try:
            yield process
        finally:
            process.kill()


@contextlib.contextmanager
def pipe_in(folder):
    """The name of a pipe in a folder, which nobody has opened."""
    path = os.path.join(folder.place, "pipe")
    os.mkfifo(path)
    try:
        yield path
    finally:
        os.remove(path)


def read_some(stream, count):
    """So many bytes of a stream, or those that come in time."""
    told, until = b"", time.monotonic() + PATIENCE
    while len(told) < count and select.select([stream], [], [], max(0, until - time.monotonic()))[0]:
        piece = os.read(stream.fileno(), count - len(told))
        if not piece:
            break
        told += piece
    return told


def writer_of(path, process):
    """A pipe that a process has opened for reading, opened for writing; None if it is not opened in time."""
    until = time.monotonic() + PATIENCE
    while time.monotonic() < until and process.poll() is None:
        with contextlib.suppress(OSError):
            return os.open(path, os.O_WRONLY | os.O_NONBLOCK)
        time.sleep(0.01)
    return None


def feed(path, process, data):
    """Writes bytes into a pipe once a process has opened it. Whether it did."""
    writer = writer_of(path, process)
    if writer is None:
        return False
    os.set_blocking(writer, True)
    with contextlib.suppress(BrokenPipeError), open(writer, "wb") as pipe:
        pipe.write(data)
    return True


def end_of(process):
    """How a process ends; None if it does not in time."""
    try:
        wrote, said = process.communicate(timeout=PATIENCE)
    except subprocess.TimeoutExpired:
        return None
    return End(process.returncode, wrote or b"", said or b"")


def try_pipes(folder, words):
    """The answer to a file is there before the next file is opened, and none is opened behind an answer that cannot be written."""
    first, last = GOOD[words[0]][0], GOOD[words[0]][-1]
    head, behind = folder.put_together(Call(words, [first])), folder.alone(words, last, b"")
    with pipe_in(folder) as path, started(folder, [*words, first, path]) as process:
        told = read_some(process.stdout, len(head.wrote))
        was_read = feed(path, process, folder.files[last])
        end = end_of(process)
    pipe = path.encode()
    wrote = front_of(words, pipe) + behind.wrote.replace(b'"name":"%s"' % last, b'"name":"%s"' % pipe)
    wanted = End(max(head.status, behind.status), wrote, behind.said)
    wrong = None if told == head.wrote and was_read else f"{told!r} before the pipe was opened, {was_read}"
    folder.tally.hold(f"{words}, an answer before the next file", wrong or (differs(end, wanted) if end else "it did not end"))
    with pipe_in(folder) as path, started(folder, [*words, first, path, path]) as process:
        read_some(process.stdout, len(head.wrote))
        process.stdout.close()
        feed(path, process, folder.files[last])
        end = process.wait(PATIENCE), process.stderr.read()
    wanted = (5, not_written(BROKEN).said)
    folder.tally.hold(f"{words}, a reader who leaves", None if end == wanted else f"{end}")


def try_lost_output(folder, words):
    """No file is opened behind an answer that cannot be written, and none if the words or the list are wrong: the pipe, which would
    never be opened for writing, is not opened."""
    first = GOOD[words[0]][0]
    with pipe_in(folder) as path, open("/dev/full", "wb") as full:
        with started(folder, [*words, first, path], stdout=full) as process:
            end = end_of(process)
        folder.tally.hold(f"{words}, a full device", differs(end, FULL) if end else "it did not end")
        with started(folder, [*words, b"junk", first, path], stdout=full) as process:
            end = end_of(process)
        is_well = end and end.status == 5 and end.said.endswith(FULL.said)
        folder.tally.hold(f"{words}, a fault and a full device", None if is_well else f"{end}")
        for listed, wanted in ((b"\xff\xfe\0", NO_TEXT), (first + b"\0two\xff", NO_TEXT)):
            written(folder.place, {b"the list": listed})
            with started(folder, [*words, path, "--files-from", "the list"]) as process:
                end = end_of(process)
            folder.tally.hold(f"{words}, a list of {listed}", differs(end, wanted) if end else "it did not end")


# Sizes.


def peak_of(folder, names):
    """The most KiB of memory that an audit of files has had, once it has answered all and opens a pipe behind them."""
    written(folder.place, {b"the list": list_of([*names, b"pipe"], "behind")})
    with pipe_in(folder) as path, open(os.path.join(folder.place, "told"), "wb") as told:
        with started(folder, ["audit", "--json", "--files-from", "the list"], stdout=told, stderr=subprocess.DEVNULL) as process:
            writer = writer_of(path, process)
            if writer is None:
                return None
            with open(f"/proc/{process.pid}/status", encoding="ascii") as lines:
                peak = next(int(line.split()[1]) for line in lines if line.startswith("VmHWM:"))
            os.close(writer)
            end_of(process)
    return peak


def try_sizes(folder):
    """Many files take no more memory than few, and one call is faster than many."""
    data = run(folder.program, ["run"], scenario(everybody(3), 1, 1, 0)).wrote
    names = [b"copy %d" % number for number in range(MANY)]
    written(folder.place, {names[0]: data})
    for name in names[1:]:
        os.link(os.path.join(folder.place, os.fsdecode(names[0])), os.path.join(folder.place, os.fsdecode(name)))
    few, many = peak_of(folder, names[:FEW]), peak_of(folder, names)
    is_well = few and many and many - few <= MORE_KIB
    folder.tally.hold(f"memory of {MANY} files", None if is_well else f"{many} KiB, and {few} KiB of {FEW}")
    written(folder.place, {b"the list": list_of(names[:TIMED], "behind")})
    since = time.monotonic()
    end = folder.run(["audit", "--json", "--files-from", "the list"])
    one = time.monotonic() - since
    lines = [folder.run(["audit", "--json", name]).wrote for name in names[:TIMED]]
    each = time.monotonic() - since - one
    folder.tally.hold(f"{TIMED} files", None if end.wrote == b"".join(lines) else shown(end))
    folder.tally.note(f"{TIMED} bundles of {len(data)} bytes: {one:.2f} s by one call, {each:.2f} s by {TIMED} calls")
    folder.tally.note(f"memory: {many} KiB for {MANY} bundles, {few} KiB for {FEW}")


def trials(program, tally, is_timed=True):
    if not set(COMMANDS) <= tally.commands or run(program, ["audit", "junk", "junk"]).status == 2:
        tally.note("left out: the program takes no several files")
        return
    with tempfile.TemporaryDirectory() as place:
        folder, parts = Folder(program, place, tally), [try_names, try_files, try_lists, try_options, try_words, try_pipes, try_lost_output]
        chosen = tally.chosen([*parts, *([try_sizes] if is_timed else [])])
        for command in COMMANDS:
            for words in ([command], [command, "--json"]):
                for trial in filter(parts.__contains__, chosen):
                    trial(folder, words)
        if try_sizes in chosen:
            try_sizes(folder)
        ran = [at for at, _, names in os.walk(place) if "ran" in names]
        tally.hold("no name is run", f"{ran}" if ran else None)


def main():
    if len(sys.argv) != 2:
        sys.exit(__doc__)
    with tempfile.TemporaryDirectory() as place:
        program = reference_tool(place) if sys.argv[1] == "reference" else os.path.abspath(sys.argv[1])
        tally = Tally("many_files", commands_of(program))
        trials(program, tally, sys.argv[1] != "reference")
        tally.close()
    return 1 if tally.failed else 0


if __name__ == "__main__":
    sys.exit(main())

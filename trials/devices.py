"""Inputs and outputs that fail: each ends with the status and the line that docs/FORMATS.md has, and nothing hangs."""
import contextlib
import os
import tempfile
import threading

from layout import MARK, Bundle
from programs import End, differs, fault, run
from scenarios import header_text, signed, sixteen

OPEN_FAILED = End(5, b"", b"open failed\n")
READ_FAILED = End(5, b"", b"read failed\n")
WRITE_FAILED = End(5, b"", b"write failed\n")
# What the system says of a stream that is closed, or open for the other direction, and of a pipe that nobody reads.
CLOSED, BROKEN = "Bad file descriptor (os error 9)", "Broken pipe (os error 32)"
LONGEST = 1 << 30
NO_FOLDER, TOO_LONG = "Not a directory (os error 20)", f"it has more than {LONGEST} bytes"
# The longest input is kept in memory, in room that grows: where less is there, it is not tried.
GIB_WANTED = 4


def jobs(program, commands):
    """Each command with an input on which it writes something: the words and the input."""
    text = signed()["split"]
    bundle = run(program, ["run"], text).wrote
    evidence = run(program, ["accuse", "--general", "0"], bundle).wrote
    both = [(["decide"], text), (["run"], text), (["judge"], text), (["judge", "--workers", "3"], text)]
    both += [(["audit"], bundle), (["audit", "--workers", "3"], bundle), (["draw"], bundle)]
    both += [(["accuse", "--general", "0"], bundle), (["run"], sixteen()), (["receipt", "--general", "0"], bundle)]
    both += [(["receipts"], run(program, ["receipt", "--general", "0"], bundle).wrote)]
    both += [(["campaign"], b"campaign 2\n" + b"".join(signed(slot=slot)["pair"] for slot in (1, 2)))]
    both += [(["root"], bytes(range(32))), (["header"], header_text()), (["plan"], header_text())]
    both += [(["bundle", "-"], Bundle(bundle).front[MARK:])]
    return [(words, given) for words, given in [*both, (["evidence"], evidence)] if words[0] in commands]


def not_opened(file, reason):
    """The end where a file can't be opened, for a reason."""
    return End(5, b"", OPEN_FAILED.said + f"cannot open {file}: {reason}\n".encode())


def not_read(reason, file="standard input"):
    """The end where an input can't be read, for a reason."""
    return End(5, b"", READ_FAILED.said + f"cannot read {file}: {reason}\n".encode())


def not_written(reason):
    """The end where standard output can't be written, for a reason."""
    return End(5, b"", WRITE_FAILED.said + f"cannot write standard output: {reason}\n".encode())


FULL, FOLDER, LEFT = not_written("no space is left"), not_read("is a folder"), not_written(BROKEN)


def by_shell(program, words, streams, **how):
    """A run whose standard streams the shell opens or closes."""
    return run("sh", ["-c", f'exec "$0" "$@" {streams}', program, *words], **how)


def to_nobody(program, words, given, restores):
    """A run whose output is a pipe that nobody reads any more. The signal for that is given back to it, or is ignored."""
    reader, writer = os.pipe()
    os.close(reader)
    try:
        return run(program, words, given, stdout=writer, restore_signals=restores)
    finally:
        os.close(writer)


def to_one_who_leaves(program, words, given):
    """A run whose output is a pipe of which somebody reads one byte."""
    reader, writer = os.pipe()
    leaving = threading.Thread(target=lambda: (os.read(reader, 1), os.close(reader)))
    leaving.start()
    try:
        return run(program, words, given, stdout=writer)
    finally:
        os.close(writer)
        leaving.join()


def from_pieces(program, words, given):
    """A run whose input comes in pieces of 1 to 7 bytes and then in larger ones."""
    reader, writer = os.pipe()

    def feed():
        with contextlib.suppress(BrokenPipeError), open(writer, "wb", buffering=0) as pipe:
            at = 0
            while at < len(given):
                at += pipe.write(given[at : at + (1 + at % 7 if at < 2000 else 5000)])

    feeding = threading.Thread(target=feed)
    feeding.start()
    try:
        return run(program, words, stdin=reader)
    finally:
        os.close(reader)
        feeding.join()


def from_folder(program, words):
    folder = os.open("/", os.O_RDONLY)
    try:
        return run(program, words, stdin=folder)
    finally:
        os.close(folder)


def try_jobs(program, tally):
    """Each command with each failing stream."""
    for words, given in jobs(program, tally.commands):
        ends = {
            "a full device": (by_shell(program, words, ">/dev/full", given=given), FULL),
            "a closed output": (by_shell(program, words, ">&-", given=given), not_written(CLOSED)),
            "an output that can only be read": (by_shell(program, words, "1</dev/null", given=given), not_written(CLOSED)),
            "a pipe that nobody reads": (to_nobody(program, words, given, True), LEFT),
            "a pipe that nobody reads, no signal": (to_nobody(program, words, given, False), LEFT),
            "a folder as input": (from_folder(program, words), FOLDER),
            "a closed input": (by_shell(program, words, "<&-"), not_read(CLOSED)),
            "an input that can only be written": (by_shell(program, words, "0>/dev/null"), not_read(CLOSED)),
            "input in pieces": (from_pieces(program, words, given), run(program, words, given)),
        }
        for name, (end, wanted) in ends.items():
            tally.hold(f"{' '.join(words)}, {name}", differs(end, wanted))
        tally.count(len(ends) + 1)


def try_order(program, tally):
    """Which fault comes first, and what a run needs its streams for."""
    text = signed()["split"]
    bundle = run(program, ["run"], text).wrote
    bad_words = by_shell(program, ["run", "--capacity", "0"], "<&- >&-")
    tally.hold("bad words, both closed", None if bad_words.status == 2 else f"{bad_words}")
    cut, unsaid = fault("fault P1 line 1"), End(3, b"", b"")
    empty = by_shell(program, ["accuse", "--general", "1"], ">/dev/full", given=bundle)
    for name, end, wanted in [
        ("no input", by_shell(program, ["decide"], "</dev/null"), cut),
        ("a faulty text, a full device", by_shell(program, ["decide"], ">/dev/full", given=b""), cut),
        ("its object, a full device", by_shell(program, ["decide", "--json"], ">/dev/full", given=b""), cut),
        ("a faulty text, a closed output", by_shell(program, ["run"], ">&-", given=b""), cut),
        ("a folder, a full device", by_shell(program, ["decide"], "</ >/dev/full"), FOLDER),
        ("a faulty text, nowhere to say so", by_shell(program, ["decide"], "2>&-", given=b""), unsaid),
        ("a faulty text, a full device to say so", by_shell(program, ["decide"], "2>/dev/full", given=b""), unsaid),
        ("nothing to write, a full device", empty, End(1, b"", b"")),
        ("a reader who leaves", to_one_who_leaves(program, ["run"], sixteen()), LEFT),
    ]:
        tally.hold(name, differs(end, wanted))
    tally.count(10)


def by_pipe(program, words, given, folder):
    """A run whose file is a named pipe, into which the input is written."""
    pipe = os.path.join(folder, "pipe")
    os.mkfifo(pipe)

    def feed():
        with contextlib.suppress(BrokenPipeError), open(pipe, "wb") as file:
            file.write(given)

    feeding = threading.Thread(target=feed)
    feeding.start()
    try:
        return by_shell(program, [*words, pipe], "<&-")
    finally:
        # A program that did not open the pipe leaves the feeder waiting for a reader: it gets one that reads nothing.
        os.close(os.open(pipe, os.O_RDONLY | os.O_NONBLOCK))
        feeding.join()
        os.remove(pipe)


def try_files(program, tally):
    """Each command with its input in a file, and with a file that can't be opened or read."""
    with tempfile.TemporaryDirectory() as folder:
        file, missing = os.path.join(folder, "the input"), os.path.join(folder, "missing")
        for words, given in jobs(program, tally.commands):
            words = [word for word in words if word != "-"]
            with open(file, "wb") as kept:
                kept.write(given)
            whole = run(program, [*words, "-"], given)
            ends = {
                "a file": (by_shell(program, [*words, file], "<&-"), whole),
                "a file before the options": (by_shell(program, [words[0], file, *words[1:]], "<&-"), whole),
                "a file behind --": (by_shell(program, [*words, "--", file], "<&-"), whole),
                "standard input by its word": (run(program, [words[0], "-", *words[1:]], given), whole),
                "a named pipe": (by_pipe(program, words, given, folder), whole),
                "no such file": (run(program, [*words, missing], given), not_opened(missing, "no such file")),
                "a file with an empty name": (run(program, [*words, ""], given), not_opened("", "no such file")),
                "a file in a file": (run(program, [*words, os.path.join(file, "x")], given), not_opened(f"{file}/x", NO_FOLDER)),
                "a folder": (run(program, [*words, folder], given), not_read("is a folder", folder)),
                "a file, a full device": (by_shell(program, [*words, file], ">/dev/full"), FULL),
                "no such file, a full device": (by_shell(program, [*words, missing], ">/dev/full"), not_opened(missing, "no such file")),
            }
            for name, (end, wanted) in ends.items():
                tally.hold(f"{' '.join(words)}, {name}", differs(end, wanted))
            tally.count(len(ends) + 1)


def on_terminal(program, words, given):
    """A run whose standard output is a terminal: its status, what the terminal shows, and what standard error has."""
    ours, its = os.openpty()
    try:
        end = run(program, words, given, stdout=its)
        os.set_blocking(ours, False)
        with contextlib.suppress(BlockingIOError):
            return End(end.status, os.read(ours, 1 << 16), end.said)
        return End(end.status, b"", end.said)
    finally:
        os.close(ours)
        os.close(its)


def from_terminal(program, words, given):
    """A run whose standard input is a terminal at which the input is typed."""
    ours, its = os.openpty()
    try:
        os.write(ours, given + b"\x04")
        return run(program, words, stdin=its)
    finally:
        os.close(ours)
        os.close(its)


def try_terminals(program, tally):
    """Bytes are not written to a terminal, and a command says that it waits for one."""
    text = signed()["split"]
    bundle = run(program, ["run"], text).wrote
    for words in (["run"], ["campaign"], ["accuse", "--general", "0"], ["receipt", "--general", "0"], ["run", "missing"]):
        end = on_terminal(program, words, b"")
        is_well = end.status == 2 and end.wrote == b"" and end.said.endswith(b"; for more, try '--help'\n")
        tally.hold(f"{' '.join(words)}, bytes to a terminal", None if is_well else f"{end}")
    shown = on_terminal(program, ["audit"], bundle)
    is_well = shown.status == 0 and shown.wrote.startswith(b"run ") and shown.said == b""
    tally.hold("audit, text to a terminal", None if is_well else f"{shown}")
    typed, given = from_terminal(program, ["decide"], text), run(program, ["decide"], text)
    is_well = typed.status == 0 and typed.wrote == given.wrote and typed.said.count(b"\n") == 1
    tally.hold("decide, from a terminal", None if is_well else f"{typed}")
    tally.count(7)


def try_run_ids(program, tally):
    """The ids that are printed of a run and of a campaign are the ones that the verdict has, and are taken as asked for."""
    text = signed()["split"]
    plain = run(program, ["run"], text)
    named = run(program, ["run", "--print-run"], text)
    line = next(iter(run(program, ["audit"], plain.wrote).wrote.split(b"\n")))[len("run "):]
    tally.hold("run --print-run", differs(named, End(0, plain.wrote, line + b"\n")))
    several = b"campaign 2\n" + b"".join(signed(slot=slot)["pair"] for slot in (1, 2))
    both = run(program, ["campaign", "--print-run"], several)
    ids = [it[len("run "):] for it in run(program, ["audit"], both.wrote).wrote.split(b"\n") if it.startswith(b"run ")]
    tally.hold("campaign --print-run", differs(both, End(0, both.wrote, b",".join(ids) + b"\n")))
    for wanted, given in ((line, plain.wrote), (b",".join(ids), both.wrote)):
        end = run(program, ["audit", "--run", wanted.decode()], given)
        tally.hold("audit --run", differs(end, run(program, ["audit"], given)))
    lost = by_shell(program, ["run", "--print-run"], ">/dev/full", given=text)
    tally.hold("run --print-run, a full device", differs(lost, FULL))
    bad = run(program, ["run", "--print-run"], b"")
    tally.hold("run --print-run, a faulty text", differs(bad, fault("fault P1 line 1")))
    tally.count(6)


def gib_free():
    """The memory that the system says is available."""
    with open("/proc/meminfo", encoding="ascii") as lines:
        sizes = dict(line.split(":") for line in lines)
    return int(sizes["MemAvailable"].split()[0]) >> 20


def try_longest(program, tally):
    """The longest input, and one of a byte more, by a file that has no blocks."""
    if gib_free() < GIB_WANTED:
        tally.note(f"less than {GIB_WANTED} GiB of memory are available, so the longest input was not tried")
        return
    with tempfile.TemporaryFile() as zeros:
        for words, size, wanted in [
            (["decide"], LONGEST + 1, not_read(TOO_LONG)),
            (["audit"], LONGEST + 1, not_read(TOO_LONG)),
            (["decide"], LONGEST, fault("fault P12 line 1")),
        ]:
            zeros.truncate(size)
            zeros.seek(0)
            end = run(program, words, stdin=zeros)
            tally.count(1)
            if end.status == -9:
                tally.note(f"{words[0]} on {size} bytes was killed from outside, most likely for memory")
            else:
                tally.hold(f"{words[0]} on {size} bytes", differs(end, wanted))


def trials(program, tally):
    for trial in tally.chosen([try_jobs, try_order, try_files, try_terminals, try_run_ids, try_longest]):
        trial(program, tally)

"""Runs the program, with limits, and says how each run ended."""
import concurrent.futures
import os
import re
import subprocess
from typing import NamedTuple

# What no run takes, however busy the machine is: a run that takes longer hangs. It is waited for in steps, so that of the
# time in which the machine or these trials are halted one step counts at most.
STEPS, SECONDS = 20, 30


class End(NamedTuple):
    """How a run ended: its status, what it wrote, and what it said on standard error."""

    status: int
    wrote: bytes
    said: bytes


class Hangs(Exception):
    """A run did not end."""


def run(program, words, given=b"", **how):
    """A run of the program on these words and this input. What is named besides goes to subprocess."""
    streams = {"stdin": subprocess.PIPE, "stdout": subprocess.PIPE, "stderr": subprocess.PIPE, **how}
    with subprocess.Popen([program, *words], **streams) as started:
        try:
            return waited(started, given if started.stdin else None, words)
        except BaseException:
            started.kill()
            raise


def waited(started, given, words):
    """How a run ended that was started."""
    for _ in range(STEPS):
        try:
            wrote, said = started.communicate(given, timeout=SECONDS)
        except subprocess.TimeoutExpired:
            given = None
        else:
            return End(started.returncode, wrote or b"", said or b"")
    raise Hangs(f"{spell(words)} had not ended after {STEPS} times {SECONDS} seconds")


def side_by_side(call, items):
    """What the call answers for each item, in their order; as many calls at once as there are cores."""
    with concurrent.futures.ThreadPoolExecutor(count_cores()) as pool:
        return list(pool.map(call, items))


def count_cores():
    return len(os.sched_getaffinity(0))


def commands_of(program):
    """The commands of the program, by its own help: those of its section of commands, which ends with an empty line."""
    section = run(program, ["--help"]).wrote.decode().partition("\nCommands:\n")[2].partition("\n\n")[0]
    return set(re.findall(r"^ {2}([\w-]+)", section, re.M))


def spell(words):
    """A command as it is typed."""
    return " ".join(words) or "no words"


def shown(end):
    """An end in a few words."""
    wrote = end.wrote.decode("ascii", "replace") if len(end.wrote) < 200 and end.wrote.isascii() else ""
    text = f" {wrote!r}" if wrote else f" {len(end.wrote)} bytes"
    return f"status {end.status}, wrote{text}, said {end.said[:200].decode('ascii', 'replace')!r}"


def differs(end, wanted):
    """None where a run ended as it should, else what came and what should have come."""
    return None if end == wanted else f"{shown(end)}; wanted: {shown(wanted)}"


def first_line(end):
    """An end with the first line alone of what standard error has."""
    return end._replace(said=b"".join(end.said.splitlines(keepends=True)[:1]))


def fault(line):
    """The end of a run whose input has a fault."""
    return End(3, b"", line.encode() + b"\n")


def by_library(end):
    """An end as the libraries for C tell it, and the examples over them: of a fault the first line alone."""
    return first_line(end)._replace(wrote=b"") if end.status == 3 else end

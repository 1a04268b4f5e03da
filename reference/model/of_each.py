"""The answers to many files, each of which is answered alone."""

from __future__ import annotations

from dataclasses import replace
from typing import List

from .command import Answer, Job, Refused, Source, called
from .json_text import TOOL, VERSION, line_of

END = b"\0"


def job_of(job: Job, name: Source) -> Job:
    """The job on one of the files alone."""
    return replace(job, files=(name,), listed=())


def names_in(given: bytes) -> List[Source]:
    """The names that a list has, of which `-` is a file too (COMMANDS.md#many-files)."""
    try:
        return [name.decode("utf-8") for name in given.split(END) if name]
    except UnicodeDecodeError:
        raise Refused("a word is not UTF-8") from None


def head_of(job: Job) -> bytes:
    """What stands before the answer to a file, and names it (COMMANDS.md#many-files)."""
    if "json" not in job.flags:
        return f"file {called(job.name())}\n".encode("utf-8")
    value = {"format": "file", "name": job.name(), "tool": TOOL, "version": VERSION}
    return line_of(value) if job.command == "show" else b""


def told_of_each(job: Job, answer: Answer) -> Answer:
    """The answer to one of the files, in which the file is named (COMMANDS.md#many-files)."""
    status, output, error = answer
    is_unnamed = status > 1 and error.count(b"\n") == 1
    return status, head_of(job) + output, error + (f"the fault is in {called(job.name())}\n".encode("utf-8") if is_unnamed else b"")

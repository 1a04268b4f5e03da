"""The reference of the program sm_tool: its answers, from the definitions of the documents alone."""

from __future__ import annotations

import contextlib
import errno
import os
import sys
from dataclasses import replace
from typing import Callable, Iterator, List, Sequence

sys.path.insert(0, os.path.dirname(os.path.abspath(__file__)))

from model.command import (LONGEST_INPUT, STANDARD, WRITE_BYTES, Answer, Job, Refused, Source, answer_job,  # noqa: E402
                           answer_words, called, failed, job_asked, not_read, refused_text)
from model.faults import Fault  # noqa: E402
from model.of_each import job_of, names_in, told_of_each  # noqa: E402
from model.system import held_admission  # noqa: E402


PIECE = 1 << 20
# What the system says, where that is told in other words (COMMANDS.md#the-second-line).
REASONS = {errno.ENOENT: "no such file", errno.EISDIR: "is a folder", errno.EACCES: "permission denied",
           errno.EPERM: "permission denied", errno.ENOSPC: "no space is left"}
TO_TERMINAL = 2, b"", b"error: bytes are not written to a terminal; for more, try '--help'\n"


class NotOpened(Exception):
    """A file that could not be opened, with what the system said."""


class NotRead(Exception):
    """An input that could not be read, with what was read of it, and with what the system said."""


class NoInput(Exception):
    """The answer in the place of one to an input that could not be opened or read, or is too long."""


def reason(error: OSError) -> str:
    """What the system said, in words (COMMANDS.md#the-second-line)."""
    number = error.errno or 0
    return REASONS.get(number) or f"{os.strerror(number)} (os error {number})"


def answer(words: List[str], given: bytes) -> Answer:
    """The status, the standard output and the standard error of the words, with these bytes as standard input.

    Files that the words name are read. COMMANDS.md#exit-status.
    """
    job = job_asked(words)
    answers = [answer_words(words, given)] if job is None else [*answers_of(job, lambda: given)]
    outputs, errors = (b"".join(told[place] for told in answers) for place in (1, 2))
    return max((told[0] for told in answers), default=0), outputs, errors


def answers_of(job: Job, standard: Callable[[], bytes]) -> Iterator[Answer]:
    """The answers to the files of a job, each before the next file is read (COMMANDS.md#many-files)."""
    if not job.is_of_each():
        yield answer_files(job, job.sources(), standard, [])
        return
    plain = replace(job, flags=())
    try:
        admission = [read_whole_input(plain, source, standard) for source in job.admission]
        for given in admission:
            held_admission(given, job.system)
        listed = [name for source in job.listed for name in names_in(read_whole_input(plain, source, standard))]
    except NoInput as without:
        yield without.args[0]
        return
    except Fault as fault:
        yield failed(plain, 3, f"fault {fault.words}", "", b"")
        return
    except Refused as refused:
        yield refused_text(refused, [job.command])
        return
    for name in (*job.files, *listed):
        alone = job_of(job, name)
        yield told_of_each(alone, answer_files(alone, (name,), standard, admission))


def answer_files(job: Job, sources: Sequence[Source], standard: Callable[[], bytes], known: Sequence[bytes]) -> Answer:
    """The answer of a job to inputs that are known and to those of files behind them, which are read in their order."""
    inputs = list(known)
    for source in sources:
        try:
            inputs.append(read_whole_input(job.asking(len(inputs)), source, standard))
        except NoInput as without:
            told: Answer = without.args[0]
            return told
    return answer_job(job, inputs)


def read_whole_input(job: Job, source: Source, standard: Callable[[], bytes]) -> bytes:
    """The bytes of an input of a job; else how the job ends (COMMANDS.md#exit-status)."""
    try:
        given = standard() if source is STANDARD else read_file(source)
    except NotOpened as error:
        line = f"cannot open {called(source)}: {reason(error.args[0])}\n"
        raise NoInput(failed(job, 5, "open failed", line, b"")) from None
    except NotRead as error:
        raise NoInput(not_read(job, source, reason(error.args[1]), error.args[0])) from None
    if len(given) > LONGEST_INPUT:
        raise NoInput(not_read(job, source, f"it has more than {LONGEST_INPUT} bytes", given))
    return given


def read_file(name: str) -> bytes:
    """The bytes of a file."""
    try:
        file = os.open(name, os.O_RDONLY)
    except OSError as error:
        raise NotOpened(error) from None
    try:
        return read_whole(file)
    finally:
        os.close(file)


def read_whole(file: int) -> bytes:
    """All bytes of a file that is open, or of one that is too long enough to see that."""
    pieces: List[bytes] = []
    length = 0
    try:
        for piece in iter(lambda: os.read(file, PIECE), b""):
            pieces.append(piece)
            length += len(piece)
            if length > LONGEST_INPUT:
                break
    except OSError as error:
        raise NotRead(b"".join(pieces), error) from None
    return b"".join(pieces)


def answers_here(words: List[str]) -> Iterator[Answer]:
    """The same of the words of this process. Standard input is read where the words ask for a job that reads it."""
    job = job_asked(words)
    if job is None:
        return iter([answer_words(words, b"")])
    if job.command in WRITE_BYTES and sys.stdout is not None and sys.stdout.isatty():
        return iter([TO_TERMINAL])
    return answers_of(job, read_standard)


def read_standard() -> bytes:
    """Standard input to its end, of which a line says so where it is a terminal."""
    if sys.stdin is not None and sys.stdin.isatty():
        tell(b"sm_tool reference: reads the terminal up to the end of input\n")
    return read_input()


def read_input() -> bytes:
    """Standard input to its end; to read one that is closed is a read that fails."""
    if sys.stdin is None:
        raise NotRead(b"", OSError(errno.EBADF, ""))
    return read_whole(sys.stdin.fileno())


def write_output(output: bytes) -> None:
    """Write to standard output; where nothing is to be written, no write can fail."""
    if output and sys.stdout is None:
        raise OSError(errno.EBADF, "")
    rest = memoryview(output)
    while rest:
        rest = rest[os.write(1, rest):]


def tell(error: bytes) -> None:
    """Write to standard error, where that can be written to."""
    with contextlib.suppress(OSError):
        os.write(2, error)


def write_answer(answer: Answer) -> None:
    """Write an answer, and what is told of it. The object of a fault may be lost: its line and the status tell the fault."""
    status, output, error = answer
    try:
        write_output(output)
    except OSError as failure:
        if status <= 1:
            tell(f"write failed\ncannot write standard output: {reason(failure)}\n".encode("ascii"))
            os._exit(5)
    if error:
        tell(error)


def main() -> int:
    """Answer the words of this process.

    The order of faults and the status are those of COMMANDS.md#exit-status.
    """
    greatest = 0
    for answer_to_one in answers_here(sys.argv[1:]):
        write_answer(answer_to_one)
        greatest = max(greatest, answer_to_one[0])
    return greatest


if __name__ == "__main__":
    sys.exit(main())

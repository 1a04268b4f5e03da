#!/usr/bin/env python3
"""The library called from Python: what sm_tool writes for the bytes on standard input.

    example.py LIBRARY audit|draw|evidence|decide
    example.py LIBRARY accuse GENERAL

LIBRARY is the shared library that CMakeLists.txt builds. The exit status is that of sm_tool, and so is the line of what
failed.
"""
import ctypes
import sys

YES, NO, MISUSE, FAULT, MEMORY, LENGTH, NOBODY = range(7)
JOBS = ("audit", "draw", "evidence", "decide", "accuse")


class Options(ctypes.Structure):
    """What is asked besides the input. A value without arguments asks for nothing."""

    _fields_ = [("runs", ctypes.c_char_p), ("run_count", ctypes.c_size_t)]
    _fields_ += [(name, ctypes.c_uint32) for name in ("strict", "form", "receipts")]
    _fields_ += [("admission", ctypes.c_char_p), ("admission_bytes", ctypes.c_size_t)]
    _fields_ += [("system", ctypes.c_char_p), ("system_bytes", ctypes.c_size_t)]


class Library:
    """The functions of a shared library, over bytes."""

    def __init__(self, path):
        self.calls = ctypes.CDLL(path)
        ends = [ctypes.c_char_p, ctypes.c_size_t, ctypes.POINTER(Options), ctypes.POINTER(ctypes.c_void_p)]
        for job in JOBS:
            self.function(job).argtypes = [ctypes.c_uint32, *ends] if job == "accuse" else ends
        self.calls.sm_answer_text.argtypes = [*ends[3:], *ends[:2], ctypes.POINTER(ctypes.c_size_t)]
        self.calls.sm_answer_free.argtypes = ends[3:]

    def function(self, job):
        """The function of a job."""
        return getattr(self.calls, f"sm_{job}")

    def answer(self, job, given, *general):
        """The number that says what the answer is, and the text or line."""
        answer, asked = ctypes.c_void_p(None), Options(b"", admission=b"", system=b"")
        try:
            status = self.function(job)(*general, given, len(given), asked, answer)
            return status, self.text(answer)
        finally:
            self.calls.sm_answer_free(answer)

    def text(self, answer):
        """The text that an answer holds: none if it holds nothing."""
        count, room = ctypes.c_size_t(0), ctypes.create_string_buffer(0)
        while self.calls.sm_answer_text(answer, room, len(room), count) == LENGTH:
            room = ctypes.create_string_buffer(count.value)
        return room.raw


def read():
    """All of standard input."""
    with open(0, "rb", closefd=False) as file:
        return file.read()


def write(text):
    """Writes a text to standard output, by no buffer, which Python would write once more at the end."""
    with open(1, "wb", buffering=0, closefd=False) as file:
        while text:
            text = text[file.write(text) :]


def failed(status, line):
    """Says in a line on standard error what failed, and returns the exit status for it."""
    sys.stderr.buffer.write(line + b"\n")
    return status


def main():
    job, general = sys.argv[2:3], sys.argv[3:]
    fits = all(it.isascii() and it.isdecimal() and int(it) < 1 << 32 for it in general)
    if len(general) != (job == ["accuse"]) or not job or job[0] not in JOBS or not fits:
        print(__doc__, file=sys.stderr)
        return 2
    try:
        library = Library(sys.argv[1])
    except (OSError, AttributeError) as told:
        return failed(2, str(told).encode())
    try:
        given = read()
        status, text = library.answer(job[0], given, *map(int, general))
    except MemoryError:
        return failed(MEMORY, b"memory")
    except OSError:
        return failed(5, b"read failed")
    if status in (FAULT, MEMORY):
        return failed(status, text if status == FAULT else b"memory")
    # Of a general that is none of the run's sm_tool has no evidence, which is a no.
    if status == NOBODY:
        return NO
    try:
        write(text)
    except OSError:
        return failed(5, b"write failed")
    return status


if __name__ == "__main__":
    sys.exit(main())

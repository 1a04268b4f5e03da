#!/usr/bin/env python3
"""Times `sm_tool decide` on small, largest and refused inputs, with the peak memory of each run."""
import os
import re
import subprocess
import sys
import tempfile
import time

TOP = os.path.dirname(os.path.dirname(os.path.abspath(__file__)))
# What is timed is the program that ./prove builds. The script looks first whether a source is newer, which takes some milliseconds.
SCRIPT = os.path.join(TOP, "sm_tool")
BUILT = os.path.join(TOP, "out", "sm_tool")
RUNS = 15
MEGABYTE = 1 << 20


def set_tunables():
    """Has each program that is timed start as the script starts it, which says what the C library is to do."""
    with open(SCRIPT, encoding="ascii") as script:
        found = re.search(r"\$\{GLIBC_TUNABLES=([^}]*)\}", script.read())
    os.environ.setdefault("GLIBC_TUNABLES", found.group(1))


set_tunables()


def want_program():
    """Ends the measurement where there is no program that was proved from the sources as they are."""
    ran = subprocess.run([SCRIPT, "--version"], capture_output=True, env={**os.environ, "SM_TOOL_PROVED": "1"}, check=False)
    if ran.returncode:
        sys.exit(f"{ran.stderr.decode().strip()}\nwhat is timed is out/sm_tool")


def scenario(generals, edges, traitors, diameter, orders, order):
    lines = [f"generals {generals}"]
    lines += [f"edge {a} {b}" for a, b in edges]
    lines += [f"traitors {traitors}", f"diameter {diameter}", f"orders {orders}"]
    lines += ["choice 1", f"order {order}", "end"]
    return ("\n".join(lines) + "\n").encode()


def repeated(front, piece, size):
    """About `size` bytes, in pieces, so that this process stays small: its peak is a floor of what it measures."""
    yield front
    many = piece * (65536 // len(piece))
    for _ in range(size // len(many)):
        yield many


def measure(pieces, status):
    """The least time in seconds over several runs, the peak memory in MiB, and the size of the input."""
    best, peak = None, 0
    with tempfile.TemporaryFile() as given:
        for piece in pieces:
            given.write(piece)
        given.flush()
        size = given.tell()
        for _ in range(RUNS):
            given.seek(0)
            start = time.perf_counter()
            child = subprocess.Popen(
                [BUILT, "decide"],
                stdin=given,
                stdout=subprocess.DEVNULL,
                stderr=subprocess.DEVNULL,
            )
            _, code, used = os.wait4(child.pid, 0)
            taken = time.perf_counter() - start
            child.returncode = os.waitstatus_to_exitcode(code)
            if child.returncode != status:
                sys.exit(f"status {child.returncode} where {status} was expected")
            best = taken if best is None else min(best, taken)
            peak = max(peak, used.ru_maxrss / 1024)
    return best, peak, size


def main():
    want_program()
    line = [(a, a + 1) for a in range(15)]
    everybody = [(a, b) for a in range(16) for b in range(a + 1, 16)]
    cases = [
        ("2 generals, 1 round", [scenario(2, [(0, 1)], 0, 1, 2, 1)], 0),
        ("16 generals in a line, 15 rounds", [scenario(16, line, 0, 15, 15, 14)], 0),
        ("16 generals, 120 edges, 16 rounds", [scenario(16, everybody, 8, 8, 15, 14)], 0),
        ("refused: 1 byte", [b"x"], 3),
        ("refused: one line of 1 MB", repeated(b"", b"x", MEGABYTE), 3),
        ("refused: one line of 64 MB", repeated(b"", b"x", 64 * MEGABYTE), 3),
        ("refused: 64 MB of line feeds", repeated(b"", b"\n", 64 * MEGABYTE), 3),
        ("refused: edges of 64 MB", repeated(b"generals 16\n", b"edge 0 1\n", 64 * MEGABYTE), 3),
    ]
    first = refused = None
    print(f"{'input':36} {'ms':>9} {'ratio':>8} {'MiB':>8} {'ms/MB':>8}")
    for name, pieces, status in cases:
        taken, peak, size = measure(pieces, status)
        first = first or taken
        row = f"{name:36} {taken * 1000:9.2f} {taken / first:8.2f} {peak:8.1f}"
        if status == 3:
            refused = refused or taken
            if size >= MEGABYTE // 2:
                row += f" {(taken - refused) * 1000 / (size / MEGABYTE):8.2f}"
        print(row)


if __name__ == "__main__":
    main()

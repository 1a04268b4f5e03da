#!/usr/bin/env python3
"""Times one sm_node_shown on m + 1 receipts, beside the hashing that it needs, and tells its stack and its memory.

    python3 bench/receipts.py [ARCHIVE ..]

The archives are crates/sm_node/out/libsm_node.a, which `rt lib` in crates/sm_node makes, and where the processor has AVX2
out/libsm_node-v3.a, which `./test` leaves, unless others are named. A C compiler is wanted. The program is receipts.c. The receipts
are the reference's, of nodes that are all neighbours, in version 1. The call needs one verification for each receipt. It is taken at
OpenSSL's time for as many compressions of SHA-256, without the processor's instructions for SHA and, for processors without AVX2,
without AVX.
"""
import os
import subprocess
import sys
import tempfile

from kernels import TOP, has_level_3, openssl
from nodes import VERIFY

sys.path.insert(0, os.path.join(TOP, "trials"))

from exhibits import Keys  # noqa: E402
from model.network import Header, make_network  # noqa: E402
from model.receipt import Receipt  # noqa: E402
from scenarios import everybody  # noqa: E402

ARCHIVES = [os.path.join(TOP, "crates", "sm_node", "out", "libsm_node.a")]
ARCHIVES += [os.path.join(TOP, "out", "libsm_node-v3.a")] if has_level_3() else []
# How many nodes there are, and m, for each row: m + 1 receipts are enough.
RUNS, ORDER, PROCESSES = [(3, 1), (6, 4)], 1, 10


def receipts_of(generals, traitors):
    """A run id, and m + 1 receipts of one order."""
    keys = Keys(bytes(32), 1, generals)
    header = Header(1, 0, make_network((generals, traitors, 1, 2, 0), everybody(generals), True), keys.roots)
    given = b""
    for general in range(traitors + 1):
        front = general, 10, bytes([general] * 32), (ORDER,), ORDER
        text = header.head(general, 10, Receipt(*front, b"").head().link)
        given += Receipt(*front, keys.sign(general, header.leaf(None), text)).spell(header)
    return header.run_id.hex(), given


def built(archive, scratch):
    """The program over an archive."""
    program, embed = os.path.join(scratch, "receipts"), os.path.join(TOP, "embed")
    sources = [os.path.join(TOP, "bench", "receipts.c"), os.path.join(embed, "arena.c")]
    subprocess.run(["cc", "-std=c11", "-O2", "-D_DEFAULT_SOURCE", "-I", embed, *sources, archive, "-o", program], check=True)
    return program


def least(program, run_id, path):
    """What the program prints, of times the least of several processes."""
    found = {}
    for _ in range(PROCESSES):
        printed = subprocess.run([program, run_id, path], check=True, capture_output=True, text=True).stdout
        for name, number in (line.split() for line in printed.splitlines()):
            found[name] = min(int(number), found.get(name, int(number)))
    if (found["status"], found["order"]) != (0, ORDER):
        sys.exit(f"sm_node_shown answers {found}")
    return found


def measure(archive, scratch, times):
    program, path = built(archive, scratch), os.path.join(scratch, "receipts.of")
    for generals, traitors in RUNS:
        run_id, given = receipts_of(generals, traitors)
        with open(path, "wb") as kept:
            kept.write(given)
        found = least(program, run_id, path)
        each = found["time"] / (traitors + 1)
        print(f"{os.path.basename(archive)}, {traitors + 1} receipts: {found['time'] / 1e3:.0f} us, {each / 1e3:.0f} us each")
        print(f"  stack {found['stack']:,} bytes, memory {found['memory']:,} bytes")
        for name, (message, _) in zip(("without SHA", "without AVX"), times or []):
            print(f"  {VERIFY} compressions for each, OpenSSL {name}: ratio {each / (VERIFY * message):.2f}")


def main():
    archives = sys.argv[1:] or ARCHIVES
    lacks = [it for it in archives if not os.path.exists(it)]
    if lacks:
        sys.exit(f"{' and '.join(lacks)} is not there")
    with tempfile.TemporaryDirectory() as scratch:
        times = openssl(scratch)
        for archive in archives:
            measure(archive, scratch, times)


if __name__ == "__main__":
    main()

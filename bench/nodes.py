#!/usr/bin/env python3
"""Times one node of 16 generals who are all neighbours, called from C, beside the hashing that it needs, and its memory.

The archive crates/sm_node/out/libsm_node.a is built before, by `rt lib` in crates/sm_node, and a C compiler is wanted. The
program is nodes.c: all 16 nodes in one process, of which one is timed. The hashing that this node needs is counted in
compressions of SHA-256 and taken at OpenSSL's time for them, without the processor's instructions for SHA and without AVX, for
which the archive isn't built: the node's ring of 16 leaves, one verification of each text's signature that comes to the node,
its own signatures, and its log.
"""
import os
import subprocess
import sys
import tempfile

from kernels import TOP, openssl

ARCHIVE = os.path.join(TOP, "crates", "sm_node", "out", "libsm_node.a")
RUNS = 20
GENERALS = 16
# Compressions, by bench/README.md: of messages of 33 bytes.
RING, VERIFY, SIGN = 12_334, 521, 256
CALLS = ["new", "begin", "send", "hear", "end", "finish"]


def built(scratch):
    """The program."""
    program = os.path.join(scratch, "nodes")
    flags = ["-std=c11", "-O2", "-D_DEFAULT_SOURCE", "-I", os.path.join(TOP, "embed")]
    subprocess.run(["cc", *flags, os.path.join(TOP, "bench", "nodes.c"), ARCHIVE, "-o", program], check=True)
    return program


def least(program, traitors):
    """What the program prints, of times the least of several runs."""
    found = {}
    for _ in range(RUNS):
        printed = subprocess.run([program, str(traitors)], check=True, capture_output=True, text=True).stdout
        for name, number in (line.split() for line in printed.splitlines()):
            found[name] = min(int(number), found.get(name, int(number)))
    return found


def needed(found, message, block):
    """The time of the hashing that the node needs, in nanoseconds: whoever is loyal sends what the commander signed on once."""
    texts = 1 + (GENERALS - 2)
    return (RING + texts * VERIFY + 2 * SIGN) * message + found["log"] / 64 * block


def main():
    if not os.path.exists(ARCHIVE):
        sys.exit(f"{ARCHIVE} is not there: run `rt lib` in crates/sm_node")
    with tempfile.TemporaryDirectory() as scratch:
        program, times = built(scratch), openssl(scratch)
        for traitors in (1, 7):
            found = least(program, traitors)
            whole = sum(found[name] for name in CALLS)
            parts = ", ".join(f"{name} {found[name] / 1e6:.2f}" for name in CALLS)
            print(f"{traitors + 1} rounds: {whole / 1e6:.2f} ms, of which {parts}")
            print(f"  frames in {found['in']:,} bytes, out {found['out']:,}; log {found['log']:,}")
            print(f"  at most {found['most'] / (1 << 20):.2f} MiB held")
            for name, (message, block) in zip(("without SHA", "without AVX"), times or []):
                needs = needed(found, message, block)
                print(f"  hashing, OpenSSL {name}: {needs / 1e6:.2f} ms, ratio {whole / needs:.2f} (goal 1.15)")


if __name__ == "__main__":
    main()

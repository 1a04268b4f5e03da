#!/usr/bin/env python3
"""Times the local reports of the 16 logs of a run through one store, beside the hashing that they need.

The program that is timed is bench/reports.txt. What it needs is counted: the verification of each distinct signature of a
statement and of each head, and hashing each log once for its links. Their times are those of the program bench/keys.txt, in
the same run.
"""
import os
import subprocess
import tempfile

from audit import all_crates
from kernels import KEY_CRATES, KEYS_ON, built, built_unread, least
from signed import signed

REPORTS_ON = "gen_text gen_local gen_world gen_log gen_chain gen_net anyhow"
MEASURE = ("+report_each/Invariants.antt", "reports_measure.txt")
RUNS = 5


def main():
    everybody = [(a, b) for a in range(16) for b in range(a + 1, 16)]
    text = signed(16, everybody, 8, 8, 15, 14)
    with tempfile.TemporaryDirectory() as scratch:
        keys = os.path.join(scratch, "keys")
        os.mkdir(keys)
        keys = built(keys, "keys.txt", KEY_CRATES, KEYS_ON)
        logs = os.path.join(scratch, "logs")
        os.mkdir(logs)
        program = built_unread(logs, "reports.txt", all_crates(), REPORTS_ON, [MEASURE])
        found = {}
        for _ in range(RUNS):
            printed = subprocess.run([program], input=text, check=True, capture_output=True).stdout.decode()
            for name, number in (line.split() for line in printed.splitlines()):
                found[name] = min(int(number), found.get(name, int(number)))
        kernels = least(keys)
    # Of each statement one signature, a head of each log, and blocks of 64 bytes, of which the kernel hashes 12,334.
    blocks = kernels["sha2_blocks"] / 12334
    needs = (found["verified"] + 16) * kernels["verify"] + blocks * found["bytes"] / 64
    print(f"16 logs of {found['bytes']} bytes, {found['verified']} statements: {found['reports'] / 1e6:.1f} ms,", end=" ")
    print(f"needs {needs / 1e6:.1f} ms, ratio {found['reports'] / needs:.2f} (goal 1.15)")


if __name__ == "__main__":
    main()

#!/usr/bin/env python3
"""Times the machine on a scenario of 16 generals who are all neighbours, in 16 rounds, over queues of one frame, driven by
its movers to the end, as a ratio to `run_world` of the same scenario.

The program that is timed is bench/machine.txt, which is proved and built in a scratch copy of the repository.
"""
import subprocess
import tempfile

from audit import all_crates
from kernels import built_unread
from signed import signed

MACHINE_ON = "gen_text gen_async gen_world gen_log anyhow"
RUNS = 5


def main():
    everybody = [(a, b) for a in range(16) for b in range(a + 1, 16)]
    text = signed(16, everybody, 8, 8, 15, 14)
    times = {}
    with tempfile.TemporaryDirectory() as scratch:
        program = built_unread(scratch, "machine.txt", all_crates(), MACHINE_ON)
        for _ in range(RUNS):
            printed = subprocess.run([program], input=text, check=True, capture_output=True).stdout.decode()
            for name, taken in (line.split() for line in printed.splitlines()):
                times[name] = min(int(taken), times.get(name, int(taken)))
    ratio = times["machine"] / times["world"]
    print(f"{'run_world ms':>13} {'machine ms':>11} {'ratio':>6} {'goal':>5}")
    print(f"{times['world'] / 1e6:13.1f} {times['machine'] / 1e6:11.1f} {ratio:6.2f} {1.2:5.2f}")


if __name__ == "__main__":
    main()

#!/usr/bin/env python3
"""Soaks four nodes that go on and a watcher: the trial `soaking` (trials/soaking.py), whose head says what happens to them,
for longer.

    bench/soak.py TOOL PROGRAM [RUNS [PLACES]] [--siege]

TOOL is sm_tool and PROGRAM is vamuretu, both as they were built, with the archives of the libraries in out/ or where `rt
lib` leaves them. RUNS is 2000 without a number, which take four minutes; 20000 take 35 minutes and 8 GB below /tmp.
PLACES is `wired`, or `cabled` for pairs of veth, which lose no packet. With --siege an outsider floods each door meanwhile, and
a traitor with a key does so too. It prints what is wrong, and figures. The status
is 1 where something is wrong.
"""
import os
import sys

sys.path.insert(0, os.path.join(os.path.dirname(os.path.dirname(os.path.abspath(__file__))), "trials"))

from soaking import soaked  # noqa: E402

RUNS = 2000


def main():
    words = [it for it in sys.argv[1:] if it != "--siege"]
    if not 2 <= len(words) <= 4:
        sys.exit(__doc__)
    tool, program = map(os.path.abspath, words[:2])
    runs, kind = int(words[2]) if words[2:] else RUNS, words[3] if words[3:] else "wired"
    told, lacks = soaked(tool, program, runs, kind, "--siege" in sys.argv)
    for name, value in told["figures"].items():
        print(f"{name}: {value}")
    print(f"left out: namespaces, losses and a full disk: {lacks}" if lacks else "", end="\n" if lacks else "")
    print("\n".join(told["wrong"]) or "nothing is wrong")
    return 1 if told["wrong"] else 0


if __name__ == "__main__":
    sys.exit(main())

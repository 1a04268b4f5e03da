#!/usr/bin/env python3
"""An actuator: it does a command for each decision of a value that holds, and nothing for any other decision.

    vamuretu decisions FILE | ./actuate.py NAME COMMAND

A decision holds if each correct node decides it where at most m are faulty. One that does not hold is worth nothing alone: the
node was cut off or late, and the others may have decided another value. Then nothing is done, which has to be safe, and standard
error says why. What was decided while this was not here is not done later. The status is 1 if no further decision comes.
"""
import json
import subprocess
import sys


def why_not(decided, last):
    """Why nothing is done for a decision, if so, where `last` is the newest run that was acted on."""
    if decided["run"] <= last:
        return f"run {decided['run']} is not behind run {last}"
    return None if decided["holds"] is True else decided["worth"]


def main(name, command):
    last = -1
    for line in sys.stdin:
        told = json.loads(line)
        decided = told.get("decided")
        if "missed_decisions" in told:
            print(f"{told['missed_decisions']} decisions were not read in time", file=sys.stderr)
        if decided and decided["value"] == {"name": name}:
            reason = why_not(decided, last)
            if reason is None:
                last = decided["run"]
                subprocess.run(["/bin/sh", "-c", command], stdin=subprocess.DEVNULL, check=False)
            else:
                print(f"run {decided['run']}: nothing is done: {reason}", file=sys.stderr)
    return 1


if __name__ == "__main__":
    if len(sys.argv) != 3:
        sys.exit(__doc__)
    sys.exit(main(*sys.argv[1:]))

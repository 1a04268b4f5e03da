#!/usr/bin/env python3
"""A stand-in for a machine: starts programs, and ends them and all that they have started once its own input ends.

    stand_in.py LOG COMMANDS

COMMANDS is a list of commands as JSON, and what they say goes to LOG. A process below this one whose parent has ended becomes a
child of this one, as those of a machine become children of its first process. So none is left, however they were started, and
none of another is looked for. The input ends with whoever started this, at the latest.
"""
import ctypes
import json
import os
import signal
import subprocess
import sys
import time

# From <linux/prctl.h>.
PR_SET_CHILD_SUBREAPER = 36


def parents():
    """Each process that runs, with its parent."""
    found = {}
    for name in filter(str.isdecimal, os.listdir("/proc")):
        try:
            with open(f"/proc/{name}/stat", "rb") as file:
                state, parent = file.read().rpartition(b")")[2].split()[:2]
        except OSError:
            continue
        if state not in (b"Z", b"X"):
            found[int(name)] = int(parent)
    return found


def below(top):
    """The processes that descend from one, in no order."""
    of, found = parents(), {top}
    while more := {process for process, parent in of.items() if parent in found} - found:
        found |= more
    return found - {top}


def end_all():
    """Ends all processes below this one. One that begins meanwhile is found the next time."""
    while processes := below(os.getpid()):
        for process in processes:
            try:
                os.kill(process, signal.SIGKILL)
            except ProcessLookupError:
                continue
        time.sleep(0.02)


def main():
    if len(sys.argv) != 3:
        sys.exit(__doc__)
    os.setsid()
    if ctypes.CDLL(None, use_errno=True).prctl(PR_SET_CHILD_SUBREAPER, 1, 0, 0, 0):
        sys.exit("stand_in.py: the system has no subreapers")
    try:
        with open(sys.argv[1], "ab") as log:
            for command in json.loads(sys.argv[2]):
                # pylint: disable-next=consider-using-with
                subprocess.Popen(command, stdin=subprocess.DEVNULL, stdout=log, stderr=log)
        signal.signal(signal.SIGCHLD, signal.SIG_IGN)
        sys.stdin.buffer.read()
    finally:
        end_all()


if __name__ == "__main__":
    main()

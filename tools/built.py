#!/usr/bin/env python3
"""Writes into a copy of the sources of which commit, by which kit and of which sources the program is built.

    tools/built.py write TREE    writes it into crates/sm_tool/src/built.rt of the copy TREE of this checkout

`sm_tool --version` tells it. In a checkout the file says that all three are unknown. The digest of the sources is that of
tools/proved.py, which takes the file as a checkout has it.
"""
import os
import subprocess
import sys

import proved

TOP = os.path.dirname(os.path.dirname(os.path.abspath(__file__)))
UNKNOWN = "unknown"


def said(command):
    """What a command says in one line, or None where it fails."""
    try:
        ran = subprocess.run(command, cwd=TOP, capture_output=True, text=True, check=True)
    except (OSError, subprocess.CalledProcessError):
        return None
    return ran.stdout.strip()


def commit():
    """The commit of the checkout, and whether a file of it is another one now."""
    named, changes = said(["git", "rev-parse", "HEAD"]), said(["git", "status", "--porcelain", "--untracked-files=no"])
    return f"{named}{' with changes' if changes else ''}" if named else UNKNOWN


def texts(tree):
    """What the program says of its build, by the names of the constants."""
    kit = (said(["rt", "version"]) or UNKNOWN).split()[0]
    return {"COMMIT": commit(), "KIT": kit, "SOURCES": proved.sources(tree, "sm_tool") or UNKNOWN}


def main():
    if len(sys.argv) != 3 or sys.argv[1] != "write":
        sys.exit(__doc__)
    path = os.path.join(sys.argv[2], proved.BUILT)
    told = texts(sys.argv[2])
    with open(path, encoding="utf-8") as file:
        text = proved.CONSTANT.sub(lambda it: f'{it[1]}"{told[it[2]]}";', file.read())
    with open(path, "w", encoding="utf-8") as file:
        file.write(text)


if __name__ == "__main__":
    main()

"""Builds the program vamuretu (vamuretu/) by cargo, over the archives of the libraries for C, as tools/node_program.py does."""
import os
import subprocess
import sys

from embed import TOP, IsNotBuilt

sys.path.insert(0, os.path.join(TOP, "tools"))
import node_program  # noqa: E402

PACKAGE = os.path.join(TOP, "vamuretu")


def build_program(tally):
    """The program's path. A line says what is left out if it can't be built here."""
    lacks = node_program.what_lacks(TOP)
    if lacks:
        tally.note(f"left out: {lacks}")
        return None
    try:
        return node_program.build(TOP)
    except subprocess.CalledProcessError as told:
        raise IsNotBuilt(told.stderr.decode(errors="replace")) from told

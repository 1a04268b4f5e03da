#!/usr/bin/env python3
"""Names each line of the crates' definitions (specs/) and of their tests that is wider than 112 columns.

    python3 tools/widths.py    at the top of the repository

It prints nothing, and its status is 0, where there is none. Lines that import names are left out: the formatter makes them.
"""
import pathlib
import sys

WIDEST = 110


def too_wide(file):
    """The numbers of the lines of a file that are too wide."""
    lines = file.read_text(encoding="utf-8").split("\n")
    return [at for at, line in enumerate(lines, 1) if len(line) > WIDEST and not line.lstrip().startswith(("use ", "ghost use "))]


def main():
    files = sorted([*pathlib.Path("crates").glob("*/specs/**/*.antt"), *pathlib.Path("crates").glob("*_tests/src/**/*.rt")])
    found = [f"{file}:{line}: wider than {WIDEST} columns" for file in files for line in too_wide(file)]
    print("\n".join(found), end="\n" if found else "")
    return 1 if found else 0


if __name__ == "__main__":
    sys.exit(main())

#!/usr/bin/env python3
"""Joins the lines of an audit of many files, and says which files have none.

    join.py LIST LINES .. > VERDICTS

LIST has the names of the files, with a zero byte behind each. LINES has what `sm_tool audit --json` wrote, or is a folder of such
files. The lines are written sorted by the names. Standard error names each file with another status than 0, which is that of
`--strict`, each file of LIST that has not one line alone, and each other file with a line. Last it counts the files of each
status. Names are written as in JSON. Status 0: each file has one line, with status 0. Status 1: each file has one line. Status 2:
wrong words. Status 3: some file has none or several, or is not in LIST.
"""
import collections
import json
import os
import sys


def read_lines(path):
    """The lines of a file, or of all files of a folder."""
    for name in sorted(os.listdir(path)) if os.path.isdir(path) else [""]:
        with open(os.path.join(path, name) if name else path, "rb") as file:
            yield from file


def told_by(answer):
    """The name of the file of an answer, its status, and its verdict, or those of a campaign, or the fault."""
    if answer["format"] == "fault":
        return answer["name"], answer["status"], answer["fault"]
    runs = answer.get("runs", [answer])
    is_no = any(run["verdict"] != "agreed" or run["equal_roots"] for run in runs)
    return answer["input"]["name"], int(is_no), ", ".join(run["verdict"] for run in runs)


def tell(what, name):
    """Says something of a file on standard error."""
    print(f"{what}: {json.dumps(os.fsdecode(name))}", file=sys.stderr)


def main():
    if len(sys.argv) < 3:
        print(__doc__, file=sys.stderr)
        return 2
    with open(sys.argv[1], "rb") as file:
        listed = set(file.read().split(b"\0")) - {b""}
    lines = collections.defaultdict(list)
    for line in (line for path in sys.argv[2:] for line in read_lines(path)):
        name, status, said = told_by(json.loads(line))
        lines[os.fsencode(name or "-")].append((status, said, line))
    wrong = [name for name in listed | set(lines) if name not in listed or len(lines[name]) != 1]
    for name in sorted(lines):
        for status, said, line in lines[name]:
            sys.stdout.buffer.write(line)
            if status:
                tell(f"status {status}, {said}", name)
    for name in sorted(wrong):
        tell(f"{len(lines[name])} lines" if name in listed else "not in the list", name)
    counts = collections.Counter(status for many in lines.values() for status, _, _ in many)
    for status, count in sorted(counts.items()):
        print(f"{count} files with status {status}", file=sys.stderr)
    return 3 if wrong else int(set(counts) != {0})


if __name__ == "__main__":
    sys.exit(main())

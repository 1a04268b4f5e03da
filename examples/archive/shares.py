#!/usr/bin/env python3
"""Makes a job of an archive: the list of its bundles, in shares that workers audit (work.sh).

    shares.py ARCHIVE JOB [FILES]

Bundles are the files below ARCHIVE whose names end in .bundle or .bundles, and no symbolic links. JOB is a folder that is made
here. It has `list`, the whole names, sorted, with a zero byte behind each, and `shares`, of FILES names each, of 100 where no
number is given. A name that is not UTF-8 stands in no share, since sm_tool takes none; join.py names it. Status 2: wrong words,
no such folder, no bundle in it, or a JOB that is there.
"""
import os
import sys

ENDINGS = (b".bundle", b".bundles")
PLACES = ("shares", "todo", "taken", "lost", "lines")


def is_utf8(name):
    """Whether a name is one that sm_tool takes."""
    try:
        return bool(name.decode())
    except UnicodeDecodeError:
        return False


def bundles(folder):
    """The names of the bundles below a folder, sorted by their bytes."""
    found = [os.path.join(at, name) for at, _, names in os.walk(folder) for name in names if name.endswith(ENDINGS)]
    return sorted(name for name in found if os.path.isfile(name) and not os.path.islink(name))


def write(names, *path):
    """Writes a list of names."""
    with open(os.path.join(*path), "wb") as file:
        file.write(b"".join(name + b"\0" for name in names))


def make_job(names, job, most):
    """Makes the folder of a job."""
    for place in PLACES:
        os.makedirs(os.path.join(job, place))
    write(names, job, "list")
    names = [name for name in names if is_utf8(name)]
    for share, first in enumerate(range(0, len(names), most)):
        write(names[first : first + most], job, "shares", f"{share:06}")
        # A worker takes a share by renaming this file.
        write([], job, "todo", f"{share:06}")


def main():
    words = sys.argv[1:]
    if len(words) not in (2, 3) or not all(it.isdecimal() and int(it) for it in words[2:]):
        print(__doc__, file=sys.stderr)
        return 2
    names = bundles(os.fsencode(os.path.abspath(words[0])))
    if not names or os.path.exists(words[1]):
        print(f"shares.py: {words[0]} has no bundles" if not names else f"shares.py: {words[1]} is there", file=sys.stderr)
        return 2
    make_job(names, words[1], int(words[2]) if len(words) == 3 else 100)
    return 0


if __name__ == "__main__":
    sys.exit(main())

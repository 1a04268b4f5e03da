#!/usr/bin/env python3
"""Counts the words of the pages, and tells how long each takes to read.

    python3 tools/pages.py            prints each page with its words and its minutes, and the sum, at the top of the repository
    python3 tools/pages.py --check    names what is too long, and each time in docs/README.md that isn't that of its page
    python3 tools/pages.py --put      writes the times to docs/README.md

The pages are the files *.md that git knows, or all of them where there is no git, as in a copy. Words are counted as `wc -w` does,
and a minute has 200 of them. A time in docs/README.md stands in brackets behind the link to its page, as `[WALK](WALK.md) (30 min)`,
and is rounded up. With --check it prints nothing, and its status is 0, where each time is right, and the pages for those who use
Vamuretu have at most 100,000 words. Pages for those who change the proofs have no bound.
"""
import pathlib
import re
import subprocess
import sys

WORDS_A_MINUTE, MOST_WORDS = 200, 100_000
# The pages and folders of pages for those who change the proofs.
OF_MAINTAINERS = ("crates/", "edits/", "docs/ROWS.md", "docs/VERSION-3.md", "docs/LIBRARY.md", "docs/CHANGING.md", "docs/DECISIONS.md")
MAP = pathlib.Path("docs/README.md")
TIME = re.compile(r"(\]\(([^)#\s]+\.md)\) \()(\d+)( min\))")


def pages():
    """The pages, sorted by name."""
    if pathlib.Path(".git").exists():
        listed = subprocess.run(["git", "ls-files", "-z", "*.md"], capture_output=True, check=True).stdout.decode().split("\0")
        found = [pathlib.Path(name) for name in listed if name]
    else:
        found = [it for it in pathlib.Path(".").rglob("*.md") if "out" not in it.parts]
    return sorted(it for it in found if it.is_file())


def words_of(page):
    return len(page.read_bytes().split())


def minutes_of(words):
    return -(-words // WORDS_A_MINUTE)


def print_all():
    counted = [(page, words_of(page)) for page in pages()]
    total = sum(words for _, words in counted)
    users = sum(words for page, words in counted if not str(page).startswith(OF_MAINTAINERS))
    for name, words in [*counted, ("pages for users", users), ("all pages", total)]:
        print(f"{words:7,} words {minutes_of(words):4} min  {name}")
    return 0


def timed():
    """The text of the map with the times of today, and what is wrong with those that it has."""
    wrong = []

    def put(found):
        before, link, minutes, behind = found.groups()
        page = MAP.parent / link
        if not page.is_file():
            wrong.append(f"{link} is not there")
            return found.group()
        right = minutes_of(words_of(page))
        if right != int(minutes):
            wrong.append(f"{link} takes {right} min, and not {minutes}")
        return f"{before}{right}{behind}"

    text = TIME.sub(put, MAP.read_text(encoding="utf-8"))
    return text, wrong


def check():
    total = sum(words_of(it) for it in pages() if not str(it).startswith(OF_MAINTAINERS))
    found = [f"{MAP}: {it}" for it in timed()[1]]
    if not TIME.search(MAP.read_text(encoding="utf-8")):
        found.append(f"{MAP}: it gives no time")
    if total > MOST_WORDS:
        found.append(f"the pages for users have {total:,} words, and may have {MOST_WORDS:,}")
    print("\n".join(found), end="\n" if found else "")
    return 1 if found else 0


def put():
    MAP.write_text(timed()[0], encoding="utf-8")
    return 0


def main():
    ways = {(): print_all, ("--check",): check, ("--put",): put}
    way = ways.get(tuple(sys.argv[1:])) or sys.exit(__doc__)
    return way()


if __name__ == "__main__":
    sys.exit(main())

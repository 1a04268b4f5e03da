#!/usr/bin/env python3
"""Names each link of the documents that leads to no file of the repository, or to no heading or anchor of one.

    python3 tools/links.py    at the top of the repository

It prints nothing, and its status is 0, where there is none. Links to other hosts are left out.
"""
import pathlib
import re
import sys


def text_of(file):
    """A document without its blocks of code and its code within lines, in which nothing is a link."""
    text = re.sub(r"^```.*?^```$", "", file.read_text(encoding="utf-8"), flags=re.MULTILINE | re.DOTALL)
    return re.sub(r"`[^`\n]*`", lambda code: code.group().replace("](", "] ("), text)


def anchors_of(file):
    """What a link may name in a document: its headings, as hosts of repositories spell them, and its own anchors."""
    text = text_of(file)
    headings = re.findall(r"^#+ +(.*?) *$", text, re.MULTILINE)
    spelled = (re.sub(r"\[([^\]]*)\]\([^)]*\)", r"\1", heading).lower() for heading in headings)
    names = [re.sub(r"[^\w\- ]", "", heading).replace(" ", "-") for heading in spelled]
    numbered = [f"{name}-{names[:at].count(name)}" if name in names[:at] else name for at, name in enumerate(names)]
    return {*numbered, *re.findall(r'<a (?:id|name)="([^"]*)"', text)}


def leads_nowhere(file, link):
    """Whether a relative link of a document names no file or folder, or no anchor of one."""
    path, _, anchor = link.partition("#")
    target = file.parent / path if path else file
    return not target.exists() or bool(anchor) and anchor not in anchors_of(target)


def main():
    found = []
    for file in sorted(it for it in pathlib.Path(".").rglob("*.md") if "out" not in it.parts):
        links = re.findall(r"\]\(([^)\s]+)\)", text_of(file))
        found += [f"{file}: {it} leads nowhere" for it in links if ":" not in it and leads_nowhere(file, it)]
    print("\n".join(found), end="\n" if found else "")
    return 1 if found else 0


if __name__ == "__main__":
    sys.exit(main())

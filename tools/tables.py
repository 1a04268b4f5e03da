#!/usr/bin/env python3
"""Makes tables and lists of the pages: the list of trials/README.md, each subject of trials/run.py with the first paragraph of
its docstring, those of docs/REFERENCE.md and docs/socket.schema.json (tables_vamuretu.py), and those of docs/EMBED.md
(tables_embed.py).

    tools/tables.py            writes the tables into the pages
    tools/tables.py --check    writes nothing; where a page has another table it says so, and the status is 1
"""
import ast
import os
import re
import sys

import tables_embed
import tables_vamuretu
from version import TOP, read

TRIALS = os.path.join(TOP, "trials")
HEADING = "## The subjects"


def module(name):
    return ast.parse(read(os.path.join(TRIALS, f"{name}.py")))


def subjects():
    """The subjects of the trials, in the order in which they are tried."""
    changes = [it for it in module("run").body if isinstance(it, (ast.Assign, ast.AugAssign))]
    named = [it for it in changes if "SUBJECTS" in ast.unparse(it).split(" ", maxsplit=1)[0]]
    return [name for it in named for name in ast.literal_eval(it.value)]


def head_of(name):
    """The first paragraph of a module's docstring, in one line, with links to the documents that it names."""
    head = (ast.get_docstring(module(name)) or sys.exit(f"trials/{name}.py has no docstring")).partition("\n\n")[0]
    return re.sub(r"docs/[A-Z]+\.md", lambda it: f"[{it[0]}](../{it[0]})", head.replace("\n", " "))


def subjects_list():
    """An item for each subject."""
    return [f"- `{name}.py`: {head_of(name)}" for name in subjects()]


def with_table(text, heading, rows):
    """A page whose first table or list behind a heading has these lines."""
    before, found, behind = text.partition(f"\n{heading}\n")
    table = re.search(r"(?:^(?:\||- ).*\n)+", behind, re.MULTILINE)
    if not found or not table or re.search(r"^#", behind[:table.start()], re.MULTILINE):
        sys.exit(f"no table and no list stands behind {heading}")
    return before + found + behind[:table.start()] + "".join(f"{it}\n" for it in rows) + behind[table.end():]


def made():
    """Each file that has what is made here, with the text that it has then."""
    page = os.path.join(TRIALS, "README.md")
    yield page, with_table(read(page), HEADING, subjects_list())
    for page, tables in ((tables_vamuretu.REFERENCE, tables_vamuretu.TABLES), (tables_embed.PAGE, tables_embed.TABLES)):
        text = read(page)
        for heading, rows in tables.items():
            text = with_table(text, heading, rows())
        yield page, text
    yield tables_vamuretu.SCHEMA, tables_vamuretu.schema()


def wrong():
    """What is wrong with the pages, a line each."""
    for path, text in made():
        is_there = os.path.exists(path)
        if is_there and read(path) == text:
            continue
        name, known = os.path.relpath(path, TOP), set(read(path).splitlines()) if is_there else set()
        yield f"{name}: tools/tables.py makes another table"
        yield from (f"{name}: it lacks {line}" for line in text.splitlines() if line not in known)
    yield from tables_vamuretu.wrong()


def main():
    if sys.argv[1:] not in ([], ["--check"]):
        sys.exit(__doc__)
    if sys.argv[1:]:
        lines = list(wrong())
        print("".join(f"{line}\n" for line in lines), end="")
        return 1 if lines else 0
    for path, text in made():
        with open(path, "w", encoding="utf-8") as file:
            file.write(text)
    return 0


if __name__ == "__main__":
    sys.exit(main())

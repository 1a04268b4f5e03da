#!/usr/bin/env python3
"""Names each page that breaks the rules of docs/CHANGING.md for the length of sentences, with its longest sentence.

    python3 tools/style.py          looks at the pages that keep the rules, at the top of the repository
    python3 tools/style.py --all    prints the numbers of every page: words a sentence, words of the longest, words, its name

Without --all it prints nothing, and its status is 0, where each page keeps the rules. Left out are blocks of code, headings,
header rows of tables, and targets of links. An item of a list begins a sentence, and so does a cell of a table, and what stands
behind the key of an item: code, or the name of a fault, and a colon. Code within a line counts as one word.
"""
import pathlib
import re
import sys

MEAN = 16
LONGEST = 35

# The pages that keep the rules.
KEPT = [
    "CHANGELOG.md",
    "INSTALL.md",
    "README.md",
    "SECURITY.md",
    "bench/README.md",
    "crates/README.md",
    "docs/VERSION-3.md",
    "docs/ANSWERS.md",
    "docs/ARCHITECTURE.md",
    "docs/ARCHIVE.md",
    "docs/ASSURANCE.md",
    "docs/BUDGET.md",
    "docs/CHANGING.md",
    "docs/COMMANDS.md",
    "docs/DECISIONS.md",
    "docs/EMBED.md",
    "docs/FORMATS.md",
    "docs/GLOSSARY.md",
    "docs/IDENTITIES.md",
    "docs/LIBRARY.md",
    "docs/LIFE.md",
    "docs/LLVM.md",
    "docs/NODES.md",
    "docs/PAGE.md",
    "docs/PROMISES.md",
    "docs/PROTOCOL.md",
    "docs/README.md",
    "docs/RECORDS.md",
    "docs/REFERENCE.md",
    "docs/ROWS.md",
    "docs/SYSTEM.md",
    "docs/WALK.md",
    "docs/WORDS.md",
    "edits/README.md",
    "embed/python/README.md",
    "embed/rust/README.md",
    "examples/README.md",
    "reference/README.md",
    "trials/README.md",
]

ITEM = re.compile(r"\s*(?:[-*+]|\d+[.)])\s+")
KEY = re.compile(r"((?:(?:`[^`]*`|[A-Z]\d+)(?:, )?)+:)?\s*(.*)", re.DOTALL)
RULE = re.compile(r"\s*\|[\s:|-]+\|\s*")


def lines_of(text):
    """The lines of a page without blocks of code, which are fenced, or are indented behind an empty line."""
    fenced = code = False
    before = ""
    for line in text.split("\n"):
        if line.lstrip().startswith("```"):
            fenced, line = not fenced, ""
        elif fenced:
            line = ""
        code = line.startswith("    ") and (code or not before.strip())
        before = line
        yield "" if code else line


def plain(line):
    """A line without comments and targets of links, and with each piece of code as one word."""
    line = re.sub(r"`[^`]*`", lambda code: re.sub(r"[\s|<>]", "_", code.group()), line)
    line = re.sub(r"<!--.*?-->|</?[a-z][^>]*>", "", line)
    return re.sub(r"!?\[([^\]]*)\]\([^)]*\)", r"\1", line)


def pieces_of(text):
    """The paragraphs, items of lists and cells of tables of a page."""
    lines, piece = [plain(line) for line in lines_of(text)] + [""], []
    for at, line in enumerate(lines[:-1]):
        is_row, is_item = line.lstrip().startswith("|"), bool(ITEM.match(line))
        if is_row or is_item or not line.strip() or line.startswith("#"):
            yield " ".join(piece)
            piece = []
        if is_row and not RULE.fullmatch(line) and not RULE.fullmatch(lines[at + 1]):
            yield from re.split(r"(?<!\\)\|", line.strip().strip("|"))
        elif not is_row and not line.startswith("#"):
            key, said = KEY.fullmatch(ITEM.sub("", line, count=1)).groups() if is_item else (None, line.strip())
            yield key or ""
            piece.append(said)
    yield " ".join(piece)


def sentences_of(text):
    """The sentences of a page, each as its words."""
    parts = (part for piece in pieces_of(text) for part in re.split(r"(?<=[.!?])[\"')*_]*\s+(?=\W*[A-Z0-9]|`)", piece))
    split = ([word for word in part.split() if re.search(r"[\w`]", word)] for part in parts)
    return [words for words in split if words]


def measured(file):
    """The words a sentence, the longest sentence, and the number of words of a page."""
    sentences = sentences_of(file.read_text(encoding="utf-8")) or [[]]
    words = sum(len(it) for it in sentences)
    return words / len(sentences), max(sentences, key=len), words


def print_all():
    for file in sorted(it for it in pathlib.Path(".").rglob("*.md") if "out" not in it.parts):
        mean, longest, words = measured(file)
        print(f"{mean:5.1f} {len(longest):4} {words:6} {file}")
    return 0


def main():
    if sys.argv[1:] == ["--all"]:
        return print_all()
    if sys.argv[1:]:
        sys.exit(__doc__)
    found = []
    for name in KEPT:
        mean, longest, _ = measured(pathlib.Path(name))
        if mean > MEAN or len(longest) > LONGEST:
            found.append(f"{name}: {mean:.1f} words a sentence, {len(longest)} in the longest: {' '.join(longest)}")
    print("\n".join(found), end="\n" if found else "")
    return 1 if found else 0


if __name__ == "__main__":
    sys.exit(main())

"""What names and lines mean: the rows of WORDS.md, names explained, and texts with words (FORMATS.md#words)."""

from __future__ import annotations

import os
import re
from dataclasses import dataclass
from typing import List, Optional

DOCUMENT = os.path.join(os.path.dirname(os.path.abspath(__file__)), "..", "..", "docs", "WORDS.md")
_ROW = re.compile(r"- `([^`]+)`(?:, `([^`]+)`)?: (.*)")


@dataclass
class Row:
    """A row of the table."""

    name: str
    form: str
    sentence: str

    @property
    def fields(self) -> List[str]:
        """The fields of the form."""
        return self.form.split(" ")


def _row(line: str) -> Row:
    """A row as the document has it; the form is the name where the document has none."""
    name, form, sentence = _ROW.fullmatch(line).groups()
    return Row(name, form or name, sentence.replace("`", ""))


def rows() -> List[Row]:
    """The rows of the document, in their order."""
    with open(DOCUMENT, encoding="utf-8") as page:
        lines = page.read().split("\n")
    return [_row(line) for line in lines if line.startswith("- `")]


def _is_letter(field: str) -> bool:
    """Whether a field of a form stands for any field."""
    return len(field) == 1 and "A" <= field <= "Z"


def _fits(form: List[str], words: List[str]) -> bool:
    """Whether the fields of a line fit a form (FORMATS.md#words)."""
    if not form or not words:
        return not form and not words
    if form[0] == "NAMES":
        return True
    return (_is_letter(form[0]) or form[0] == words[0]) and _fits(form[1:], words[1:])


def _sentence(table: List[Row], name: str) -> Optional[str]:
    """The sentence of the first row of this name."""
    return next((row.sentence for row in table if row.name == name), None)


def _meaning(table: List[Row], line: str) -> List[str]:
    """The sentences behind a line (FORMATS.md#words)."""
    words = line.split(" ")
    row = next((row for row in table if _fits(row.fields, words)), None)
    if row is None:
        return []
    stands = {}
    for field, word in zip(row.fields, words):
        if _is_letter(field):
            stands.setdefault(field, word)
    names = words[row.fields.index("NAMES"):] if "NAMES" in row.fields else []
    said = [_sentence(table, name) for name in names]
    return ["".join(stands.get(letter, letter) for letter in row.sentence)] + [it for it in said if it is not None]


def with_words(text: bytes) -> bytes:
    """A text in which each line is followed by its sentences (FORMATS.md#words)."""
    table = rows()
    *lines, last = text.decode("latin-1").split("\n")
    told = ["".join(f"{it}\n" for it in [line] + [f"  {it}" for it in _meaning(table, line)]) for line in lines]
    return ("".join(told) + last).encode("latin-1")


def explain(name: bytes) -> Optional[bytes]:
    """What a name means, or several that are parted by one space; nothing where one is no name (FORMATS.md#words).

    The empty name has all names.
    """
    table, asked = rows(), name.decode("latin-1")
    if not asked:
        return "".join(f"{row.name}\n" for row in table).encode("latin-1")
    known = {row.name: row for row in reversed(table)}
    names = [asked] if asked in known else asked.split(" ")
    if any(it not in known for it in names):
        return None
    return "".join(f"{known[it].form}\n  {known[it].sentence}\n" for it in names).encode("latin-1")

"""Reads the types of a source in Rust that rustfmt has laid out: structs and enums with the comment of each member.

What serde reads and writes follows from them. A line of a type that is not known is an error, so that no member is passed over.
"""
import re
from typing import NamedTuple

OPENS = re.compile(r"(?:pub )?(?:struct|enum) (\w+) \{$")
# A field, or a variant without members, with named ones in lines of their own or in this line, or with others.
MEMBER = re.compile(r"(?:pub )?(\w+)(?:: (.+?)| (\{)| \{(.*)\}|\(.*\))?,?$")


class Item(NamedTuple):
    """A type, a field of a struct, or a variant of an enum: its name, its type if it is a field, and the lines of its comment, its
    attributes, and its own members."""

    name: str
    type: str
    comment: list
    attributes: list
    members: list

    def has(self, attribute):
        """Whether one of its attributes has these words."""
        return any(attribute in it for it in self.attributes)

    def value_of(self, attribute):
        """What an attribute sets, as `rename = "x"`, or None."""
        found = re.search(rf'\b{attribute} = "([^"]*)"', " ".join(self.attributes))
        return found[1] if found else None

    def parts(self):
        """The comment by its parts: the text, with an empty name, and each that begins with a word and a colon in a line."""
        told, name = {"": []}, ""
        for line in self.comment:
            begins = re.match(r"(Bounds|Default): (.*)", line)
            name, line = (begins[1], begins[2]) if begins else (name, line)
            told.setdefault(name, []).append(line)
        told = {name: " ".join(lines).strip() for name, lines in told.items()}
        return {name: text if name == "" else text.rstrip(".") for name, text in told.items()}


def members_of(lines):
    """The members that stand in lines, up to the one that closes their type. The lines are taken away."""
    found, comment, attributes = [], [], []
    while lines:
        line = lines.pop(0).strip()
        if line in ("}", "},"):
            break
        if line.startswith("///"):
            comment.append(line[3:].strip())
        elif line.startswith("#["):
            attributes.append(line)
        elif told := MEMBER.fullmatch(line):
            below = members_of(lines if told[3] else re.findall(r"\w+: [^,]+", told[4] or ""))
            found.append(Item(told[1], told[2] or "", comment, attributes, below))
            comment, attributes = [], []
        else:
            raise ValueError(f"no member of a type: {line}")
    return found


def types_of(source):
    """The types of a source, by their names."""
    found, comment, attributes, lines = {}, [], [], source.splitlines()
    while lines:
        line = lines.pop(0)
        if line.startswith("///"):
            comment.append(line[3:].strip())
        elif line.startswith("#["):
            attributes.append(line)
        else:
            if told := OPENS.fullmatch(line):
                found[told[1]] = Item(told[1], "", comment, attributes, members_of(lines))
            comment, attributes = [], []
    return found

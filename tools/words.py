#!/usr/bin/env python3
"""Makes the table of the crate gen_explain of docs/WORDS.md.

    tools/words.py            writes crates/gen_explain/src/table.rt
    tools/words.py --check    only says whether it is the one that the document makes, and whether the rows keep the rules
                              of the document; else the status is 1

A row has a name, the form of a line, and a sentence. Where the document has no form, the form is the name.
"""
import json
import os
import re
import sys

TOP = os.path.dirname(os.path.dirname(os.path.abspath(__file__)))
DOCUMENT = os.path.join(TOP, "docs", "WORDS.md")
FORMATS = os.path.join(TOP, "docs", "FORMATS.md")
SCHEMA = os.path.join(TOP, "docs", "verdict.schema.json")
TABLE = os.path.join(TOP, "crates", "gen_explain", "src", "table.rt")


def read(path):
    with open(path, encoding="utf-8") as file:
        return file.read()


def rows():
    """The rows of the document, in their order: name, form, sentence."""
    found = re.findall(r"^- `([^`]+)`(?:, `([^`]+)`)?: (.*)$", read(DOCUMENT), re.MULTILINE)
    return [(name, form or name, sentence.replace("`", "")) for name, form, sentence in found]


def table_of_code(found):
    """The text of the file of the crate: a row is a line of the table, with its parts parted by bars."""
    lines = "\\n\\\n".join("|".join(row) for row in found)
    return ("//! The table of words, which tools/words.py makes of docs/WORDS.md.\n\n"
            "/// The rows, a line each: the name, the form of the line in which it stands, and the sentence, parted by bars.\n"
            f'pub const WORDS: &str = "\\\n{lines}";\n')


def letters_of(form):
    """The fields of a form for which any field may stand."""
    return {field for field in form.split(" ") if re.fullmatch("[A-Z]", field)}


def names_of_formats():
    """The names of the faults, the findings and the kinds in the tables and lists of docs/FORMATS.md."""
    return re.findall(r"^- `?([A-Z]\d+)(?: |`|:)", read(FORMATS), re.MULTILINE)


def words_of_schema(schema):
    """The names of the fields that the objects of a schema have, and the texts that a field can be."""
    parts = schema.values() if isinstance(schema, dict) else schema if isinstance(schema, list) else []
    said = [word for part in parts for word in words_of_schema(part)]
    if isinstance(schema, dict):
        texts = [schema.get("const"), *schema.get("enum", [])]
        said += [*schema.get("properties", {}), *(text for text in texts if isinstance(text, str))]
    return said


def faults_of(found):
    """What is wrong with the rows, by the rules of the document."""
    names = [name for name, _form, _sentence in found]
    for name in sorted(set(words_of_schema(json.loads(read(SCHEMA)))) - set(names)):
        yield f"{name} of docs/verdict.schema.json has no row"
    for name in names_of_formats():
        if name not in names:
            yield f"{name} of docs/FORMATS.md has no row"
    for name, form, sentence in found:
        if names.count(name) > 1:
            yield f"{name} is the name of several rows"
        if not re.fullmatch(r"[ !#-\[\]-{}~]*", name + form + sentence):
            yield f"{name} has another character than a text has"
        if "" in form.split(" ") or "NAMES" in form.split(" ")[:-1]:
            yield f"{name} has a form that no line fits"
        words = set(re.findall(r"[A-Za-z]+", sentence))
        for letter in letters_of(form):
            if any(letter in word and letter != word for word in words):
                yield f"{name} has the letter {letter} for something else too"
            if letter not in words:
                yield f"{name} does not say what {letter} is"


def main():
    found = rows()
    wrong = list(faults_of(found))
    if sys.argv[1:] == ["--check"]:
        if read(TABLE) != table_of_code(found):
            wrong.append("crates/gen_explain/src/table.rt is not the table of docs/WORDS.md: run tools/words.py")
    elif not wrong:
        with open(TABLE, "w", encoding="utf-8") as file:
            file.write(table_of_code(found))
    for line in wrong:
        print(line)
    return 1 if wrong else 0


if __name__ == "__main__":
    sys.exit(main())

"""The table of docs/EMBED.md of what each call takes, of the values that bench/exports.py has measured."""
import csv
import os

from version import TOP

PAGE = os.path.join(TOP, "docs", "EMBED.md")


def rows_of(name):
    """The rows of a file of values, each by the names of its fields."""
    with open(os.path.join(TOP, "bench", f"{name}.csv"), newline="", encoding="utf-8") as file:
        return list(csv.DictReader(file))


def table(head, rows):
    """The lines of a table. Its cells have no spaces beside them, so that a row is a word."""
    return [f"|{'|'.join(it)}|" for it in (head, ["---"] * len(head), *rows)]


def thousands(number):
    """Instructions in thousands, rounded up."""
    return f"{-(-int(number) // 1000):,}"


def calls():
    """A row for each function: the most stack, and the instructions of the longest call."""
    head = ["Function, as `sm_node_..`"]
    head += [f"{what}, {of}" for what in ("stack", "4 nodes", "16 nodes") for of in ("x86-64", "aarch64")]
    rows = []
    for row in rows_of("exports"):
        stack = [f"{int(row[f'stack {it}']):,}" for it in ("x86_64", "aarch64")]
        rows.append([f"`{row['function']}`", *stack, *(thousands(row[f"{plan} {it}"]) for plan in ("small", "limits") for it in ("x86_64", "aarch64"))])
    return table(head, rows)


TABLES = {"### What a call takes": calls}

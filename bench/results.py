#!/usr/bin/env python3
"""Prints the newest value of each goal of bench/results.csv, as the table of bench/README.md.

    python3 bench/results.py

A value that misses its goal is bold.

A row with a goal has a ratio, and the goal is the most that the ratio may be; or it has none, and the goal is the most that
the value may be. Of rows with one script, one `what` and one size the newest counts: the last day, and of one day the last row.
Sizes of one script, one `what` and one day share a row of the table.
"""
import csv
import os

FILE = os.path.join(os.path.dirname(os.path.abspath(__file__)), "results.csv")


def newest(rows):
    """The newest row of each goal, in the order in which the goals first stand in the file."""
    found = {}
    for row in (it for it in rows if it["goal"]):
        name = row["script"], row["what"], row["workers_or_size"]
        if name not in found or found[name]["date"] <= row["date"]:
            found[name] = row
    return found.values()


def grouped(rows):
    """Rows that share a row of the table, by their sizes."""
    groups = {}
    for row in rows:
        groups.setdefault((row["script"], row["what"], row["date"]), []).append(row)
    return [sorted(it, key=lambda row: row["workers_or_size"].zfill(9)) for it in groups.values()]


def told(values):
    """Values of one row, or one for all where they are the same."""
    return ", ".join(values if len(set(values)) > 1 else values[:1])


def line_of(group):
    """A row of the table. Its sizes are told where there are several."""
    script, what, unit = (group[0][it] for it in ("script", "what", "unit"))
    sizes = ": " + told([row["workers_or_size"] for row in group]) if len(group) > 1 else ""
    pairs = [(row["ratio"] or row["value"], row["goal"]) for row in group]
    behind = f" {unit}" if unit and not group[0]["ratio"] else ""
    values = [value if float(value) <= float(goal) else f"**{value}**" for value, goal in pairs]
    goals = told([row["goal"] for row in group])
    return f"| `{script}` {what}{sizes} | {goals}{behind} | {', '.join(values)}{behind} |"


def main():
    with open(FILE, encoding="utf-8", newline="") as kept:
        rows = list(csv.DictReader(kept))
    print("| Goal | At most | Newest |\n|---|---|---|")
    print("\n".join(line_of(group) for group in grouped(newest(rows))))


if __name__ == "__main__":
    main()

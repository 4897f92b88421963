#!/usr/bin/env python3
"""Counts the instructions of the built program over tables that differ in their secrets alone. bench/twin_instructions.sh calls this.

    twin_instructions.py PROGRAM

Works in the folder that it is called in. Each pair of tables gives the same replies, byte for byte, to the same lines: two rows next to
each other make a couple, and the lines ask of whole couples, or are denied. Printed are the lines and how many were denied, the
instructions of a run without lines (the opening) and how many more the second table takes, and the same of the lines, which are those
of a run with them less those of a run without. The exit status is 1 if replies differ, or if the lines differ by more than 0 if the files
of both tables are equally long, and by more than a thousandth if they aren't. Nothing is said of time: what the system does for the
program isn't counted."""
import json
import os
import random
import sys
from dataclasses import dataclass
from typing import Callable

from floor import count, run

ROWS = 256
MOST_OFF = 2_000
PROTECTED = [{"column": "v", "where": f"couple >= {low} and couple < {low + 16}"} for low in range(0, ROWS // 2, 8)]


@dataclass
class Twins:
    """What the lines ask, the number of each row in either table, how often single rows are asked, which is denied, and the protected groups,
    of which the lines then ask the edges."""

    name: str
    asks: tuple
    first: Callable[[int], int]
    second: Callable[[int], int]
    single: float = 0
    protect: tuple = ()


def other(row):
    """The other row of a couple."""
    return row ^ 1


def drawn(row, most=10**6):
    return random.Random(row).randrange(most)


def moved(row):
    """The same sum of each couple: 1 more in one row, and 1 less in the other."""
    return drawn(row) + (1 if row % 2 else -1)


TWINS = [
    Twins("one table twice", ("sum", "avg"), drawn, drawn),
    Twins("sums, 1 moved within couples", ("sum", "avg"), drawn, moved),
    Twins("sums, halves or all in one row", ("sum",), lambda row: 500_000, lambda row: 999_999 if row % 2 else 1),
    Twins("sums, couples swapped", ("sum", "avg"), drawn, lambda row: drawn(other(row)), single=0.3),
    Twins("sums with protected groups", ("sum",), drawn, moved, single=0.3, protect=PROTECTED),
    Twins("maxima, the first or second row", ("max",), lambda row: 900 - row % 2, lambda row: 899 + row % 2),
    Twins("maxima, one row or both", ("max",), lambda row: 900, lambda row: 900 - row % 2),
    Twins("maxima, the others negative", ("max",), lambda row: 100 if row % 2 else 900, lambda row: -99 if row % 2 else 900),
    Twins("maxima, the others far away", ("max",), lambda row: 400 if row % 2 else 900, lambda row: -10**12 if row % 2 else 900),
]


def write_schema(twins):
    """A public number for each couple and each row, and the numbers that are asked: as sums, or as maxima."""
    role = "max" if twins.asks == ("max",) else "sum"
    columns = [{"name": "couple", "is": "number"}, {"name": "row", "is": "number"}, {"name": "v", "is": role}]
    meant = {"columns": columns, "protect": twins.protect} if twins.protect else {"columns": columns}
    with open("schema.json", "w") as schema:
        json.dump(meant, schema)


def write_table(number):
    """Writes the table, and says how long its file is."""
    with open("table.csv", "w") as table:
        print("couple", "row", "v", sep=",", file=table)
        for row in range(ROWS):
            print(row // 2, row, number(row), sep=",", file=table)
    return os.path.getsize("table.csv")


def write_lines(twins, lines=90):
    draw = random.Random(37)
    edges = range(0, ROWS // 2 + 1, 8 if twins.protect else 1)
    with open("questions.jsonl", "w") as questions:
        for _ in range(lines):
            low, high = sorted(draw.sample(edges, 2))
            asked = f"couple >= {low} and couple < {high}"
            where = f"row = {draw.randrange(ROWS)}" if draw.random() < twins.single else asked
            print(json.dumps({"ask": draw.choice(twins.asks), "column": "v", "where": where}, separators=(",", ":")), file=questions)
    open("none.jsonl", "w").close()


def begin(program):
    """A new journal beside the table."""
    if os.path.exists("answers.journal"):
        os.remove("answers.journal")
    run(program, "init", "none.jsonl", "nothing")


def measure(program, number):
    """How long the table's file is, the instructions of opening it, those of the lines, and the replies."""
    size = write_table(number)
    begin(program)
    opening = count(program, "serve", "none.jsonl")
    begin(program)
    lines = count(program, "serve", "questions.jsonl") - opening
    with open("taken", "rb") as taken:
        return size, opening, lines, taken.read()


def compare(program, twins):
    """Prints a pair's counts, and says whether they are as they should be."""
    write_schema(twins)
    write_lines(twins)
    size, opening, lines, replies = measure(program, twins.first)
    other_size, other_opening, other_lines, other_replies = measure(program, twins.second)
    off = other_lines - lines
    allowed = 0 if size == other_size else MOST_OFF
    note = "  other replies" if replies != other_replies else "  too far apart" if abs(off) > allowed else ""
    asked, denied = replies.count(b"\n"), replies.count(b"denied")
    print(f"{twins.name:32} {asked:5} {denied:6} {opening:12,} {other_opening - opening:+9,} {lines:12,} {off:+6,}{note}")
    return not note


def main():
    program = sys.argv[1]
    print(f"{'twins':32} {'lines':>5} {'denied':>6} {'opening':>12} {'other':>9} {'of the lines':>12} {'other':>6}")
    return 0 if all([compare(program, twins) for twins in TWINS]) else 1


if __name__ == "__main__":
    sys.exit(main())

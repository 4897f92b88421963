#!/usr/bin/env python3
"""Asks random sums over tables with a width and a reach, and compares the verdicts with the definition. bench/limits.sh calls this.

    limits.py PROGRAM KEYS ROUNDS SEED

Works in the folder that it is called in. A round draws a table of 2 to 14 rows, groups of it that are protected, and of the KEYS, separated
by commas, a number for each or none; then it has the program serve 30 random sums, and open its journal again. Each reply has to be the
one that follows from the sums that were answered before, worked out by fractions:

    wide       the reduced form with the set has an entry, or a common multiple of its pivots' entries, above the width; or some row or
               protected group that is still open has no change of a single free column that alters it and goes over at most `reach` rows
    unsafe     otherwise, if some row or protected group is altered by no change
    released   otherwise

The exit status is 1 if something differs."""
import collections
import json
import math
import os
import random
import subprocess
import sys
from fractions import Fraction

WIDTHS = (1, 1, 2, 2, 3, 4, 5, 6, 2**56)
ASKED = 30


def reduced_form(sets, count):
    """The reduced form of the sets as rows of whole numbers without a common divisor, and the pivot of each."""
    rows, pivots = [[Fraction(place in chosen) for place in range(count)] for chosen in sets], []
    for column in range(count):
        lead = next((row for row in rows[len(pivots) :] if row[column]), None)
        if lead is None:
            continue
        rows.remove(lead)
        lead = [number / lead[column] for number in lead]
        rows = [[one - row[column] * other for one, other in zip(row, lead)] for row in rows]
        rows.insert(len(pivots), lead)
        pivots.append(column)
    return [primitive(row) for row in rows[: len(pivots)]], pivots


def primitive(row):
    """The row times the least number that makes all of it whole."""
    times = math.lcm(*(number.denominator for number in row))
    return [int(number * times) for number in row]


def changes_of(form, pivots, count):
    """For each free column the change that is 0 at every other one, as fractions."""
    for free in range(count):
        if free not in pivots:
            change = [Fraction(place == free) for place in range(count)]
            for row, pivot in zip(form, pivots):
                change[pivot] = Fraction(-row[free], row[pivot])
            yield change


def is_wide(form, pivots, width):
    heads = [row[pivot] for row, pivot in zip(form, pivots)]
    return math.lcm(*heads) > width or any(abs(number) > width for row in form for number in row)


def verdict(sets, table):
    """The verdict on the last set after those before it."""
    form, pivots = reduced_form(sets, table.count)
    if is_wide(form, pivots, table.keys.get("width", 2**56)):
        return "wide"
    changes = list(changes_of(form, pivots, table.count))
    sizes = [least_change(changes, target) for target in [*([row] for row in range(table.count)), *table.groups]]
    if any(size is not None and size > table.keys.get("reach", table.count) for size in sizes):
        return "wide"
    return "unsafe" if None in sizes else "released"


def least_change(changes, target):
    """Over how many rows the least change goes that alters the total over these rows; None if none does."""
    fits = [change for change in changes if sum(change[row] for row in target)]
    return min((sum(map(bool, change)) for change in fits), default=None)


def condition(rows):
    return f"id in ({','.join(map(str, rows))})"


class Table:
    """The files of a round."""

    def __init__(self, keys, seed):
        draw = self.draw = random.Random(seed)
        self.count = draw.randrange(2, 15)
        self.groups = [self.rows() for _ in range(draw.choice([0, 0, 1, 2]))]
        drawn = {"width": draw.choice(WIDTHS), "reach": draw.randrange(2, self.count + 2)}
        self.keys = {key: drawn[key] for key in keys if draw.random() < 0.8}
        groups = [{"column": "v", "where": condition(rows)} for rows in self.groups]
        columns = [{"name": "id", "is": "number"}, {"name": "v", "is": "sum"}]
        with open("schema.json", "w") as schema:
            json.dump({"columns": columns, **self.keys, **({"protect": groups} if groups else {})}, schema)
        with open("table.csv", "w") as table:
            table.write("id,v\n" + "".join(f"{row},{draw.randrange(1000)}\n" for row in range(self.count)))

    def rows(self):
        most = self.draw.choice([self.count, min(self.count, 3)])
        return sorted(self.draw.sample(range(self.count), self.draw.randint(min(most, 2), most)))


def run(program, command, given=""):
    return subprocess.run([program, command], input=given, capture_output=True, text=True, check=True).stdout


def verdicts(program, sets):
    """What the program says of each set in turn, in two runs, of which the second opens the journal of the first."""
    if os.path.exists("answers.journal"):
        os.remove("answers.journal")
    run(program, "init")
    lines = [json.dumps({"ask": "sum", "column": "v", "where": condition(rows)}, separators=(",", ":")) + "\n" for rows in sets]
    half = len(lines) // 2
    said = run(program, "serve", "".join(lines[:half])) + run(program, "serve", "".join(lines[half:]))
    return [json.loads(line).get("denied", "released") for line in said.splitlines()]


def main():
    program, keys, rounds, first = sys.argv[1], sys.argv[2].split(","), int(sys.argv[3]), int(sys.argv[4])
    counts, wrong = collections.Counter(), 0
    for seed in range(first, first + rounds):
        table, history = Table(keys, seed), []
        sets = [table.rows() for _ in range(ASKED)]
        for number, (rows, said) in enumerate(zip(sets, verdicts(program, sets), strict=True), 1):
            due = verdict([*history, rows], table)
            counts[due] += 1
            if said != due:
                print(f"seed {seed}, question {number}: {said}, and {due} is due")
                wrong += 1
                break
            history += [rows] if due == "released" else []
    print(f"{rounds} tables: " + ", ".join(f"{count} {name}" for name, count in sorted(counts.items())) + f"; {wrong} wrong")
    return 1 if wrong else 0


if __name__ == "__main__":
    sys.exit(main())

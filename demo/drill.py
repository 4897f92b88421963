#!/usr/bin/env python3
"""Works out the summary of a drill by FORMATS.md and the rule that denies, without the auditor.

    drill.py [NUMBER ..]

Sums are decided over the reduced row echelon form of the sets, in exact fractions; maxima by the upper bounds of the rows,
tried with an answer at, below and above each one that was given. It takes a quarter of a minute for each
number."""
import sys
from fractions import Fraction
from math import gcd, lcm

ROWS, LINES, WIDEST = 200, 600, 2**56


def draws(number):
    state = number
    while True:
        state = (state * 6364136223846793005 + 1442695040888963407) % 2**64
        yield state // 2**33


class Sums:
    """The sets whose sums were answered, as a reduced row echelon form: each row by its pivot, as a dictionary of its entries."""

    def __init__(self):
        self.form = {}

    def verdict(self, rows):
        form = self.with_set(rows)
        numbers = {pivot: whole(row) for pivot, row in form.items()}
        pivots = lcm(*(row[pivot] for pivot, row in numbers.items()))
        if pivots > WIDEST or any(abs(x) > WIDEST for row in numbers.values() for x in row.values()):
            return "wide"
        if any(len(row) == 1 for row in numbers.values()):
            return "unsafe"
        self.form = form
        return "released"

    def with_set(self, rows):
        """The form with one more set."""
        new = {row: Fraction(1) for row in rows}
        for pivot, row in self.form.items():
            if pivot in new:
                new = less(new, row, new[pivot])
        if not new:
            return self.form
        pivot = min(new)
        new = {place: x / new[pivot] for place, x in new.items()}
        form = {p: less(row, new, row[pivot]) if pivot in row else row for p, row in self.form.items()}
        form[pivot] = new
        return form


def less(row, other, times):
    """The row less so many times the other one, without its zeros."""
    out = dict(row)
    for place, x in other.items():
        out[place] = out.get(place, 0) - times * x
        if out[place] == 0:
            del out[place]
    return out


def whole(row):
    """The row in whole numbers without a common divisor, its first one positive."""
    scale = lcm(*(x.denominator for x in row.values()))
    numbers = {place: int(x * scale) for place, x in row.items()}
    divisor = gcd(*numbers.values()) * (1 if numbers[min(numbers)] > 0 else -1)
    return {place: x // divisor for place, x in numbers.items()}


class Maxima:
    """The sets whose maxima were answered, and these."""

    def __init__(self, numbers):
        self.numbers = numbers
        self.told = []

    def verdict(self, rows):
        answers = {answer for _, answer in self.told} or {0}
        for answer in sorted({answer + step for answer in answers for step in (-1, 0, 1)}):
            counts = extreme_rows(self.told + [(rows, answer)])
            if all(counts) and 1 in counts:
                return "unsafe"
        self.told.append((rows, max(self.numbers[row] for row in rows)))
        return "released"


def extreme_rows(told):
    """In how many rows of each set its maximum may stand: those whose least maximum it is. Some list has these maxima if
    each set has such a row; if it is one row alone, that row's number is known."""
    bound = {}
    for rows, answer in told:
        for row in rows:
            bound[row] = min(answer, bound.get(row, answer))
    return [sum(bound[row] == answer for row in rows) for rows, answer in told]


def summary(number):
    draw = draws(number)
    table = [[next(draw) for _ in range(4)] for _ in range(ROWS)]
    bands = [row[0] % 8 for row in table]
    ages = [20 + row[1] % 50 for row in table]
    sums, maxima = Sums(), Maxima([row[3] % 1000 for row in table])
    counts = {"released": 0, "unsafe": 0, "wide": 0, "refused": 0}
    for _ in range(LINES):
        a, b, c, d = (next(draw) for _ in range(4))
        least = 20 + b % 50
        most = least + c % 30
        band = d // 4 % 8 if d % 4 == 0 else None
        rows = [row for row in range(ROWS) if least <= ages[row] <= most or bands[row] == band]
        if not rows:
            counts["refused"] += 1
        else:
            counts[(maxima if a % 3 == 2 else sums).verdict(rows)] += 1
    fields = {"rows": ROWS, "asked": LINES, **counts}
    return "{" + ",".join(f'"{name}":{count}' for name, count in fields.items()) + "}"


for word in sys.argv[1:] or ["0"]:
    print(summary(int(word)))

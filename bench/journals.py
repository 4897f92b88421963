#!/usr/bin/env python3
"""Writes a full journal, with a table and a schema for it. bench/opening.sh and bench/compact.sh call this.

    journals.py KIND [ROWS]

Works in the folder that it is called in. The table has 1,024 rows, or as many as are given, and the journal 65,536 records, each true and never to be denied, in groups
of 64 as docs/FORMATS.md has them:

    sums, maxima      over random intervals of pairs of rows, and one pair more
    grown             sums and maxima in turn, over 24 rows at first and one more after each 65 or 66 records, over 1,024: 1,000 growths
    widened           the same records over the same rows, and no growth
    alike             maxima, all 9, each over two rows and a random half of the others: none says what another said
    late              maxima, all 9, each over all rows but the last 64 and half of these: the sets differ in these alone
    intervals         maxima, all 9, each over twelve intervals of all rows but the last 64 and half of these
    threes            maxima, all 9, each over three rows, of which no other set has two"""
import itertools
import json
import random
import sys

ROWS = int(sys.argv[2]) if len(sys.argv) > 2 else 1024
RECORDS = 65_536
GROUP = 64
FIRST_ROWS = 24
SUM, MAX = 1, 2
HEADER = b"\x01SQAJRNL\x01"


class Table:
    """Random numbers, one for each row and either column, or 9 everywhere."""

    def __init__(self, draw, alike):
        self.pay = [draw.randrange(100_000) for _ in range(ROWS)]
        self.best = [9 if alike else draw.randrange(1000) for _ in range(ROWS)]
        self.sums = [0, *itertools.accumulate(self.pay)]

    def write(self):
        columns = [("row", "number"), ("pay", "sum"), ("best", "max")]
        with open("schema.json", "w") as schema:
            json.dump({"columns": [{"name": name, "is": kind} for name, kind in columns]}, schema)
        with open("table.csv", "w") as table:
            print(",".join(name for name, _ in columns), file=table)
            for row in range(ROWS):
                print(row, self.pay[row], self.best[row], sep=",", file=table)

    def answer(self, kind, parts):
        """The sum or the maximum over intervals of rows that have no row in common."""
        if kind == SUM:
            return sum(self.sums[end] - self.sums[begin] for begin, end in parts)
        return max(max(self.best[begin:end]) for begin, end in parts)


def mask_of(parts):
    return sum((1 << end) - (1 << begin) for begin, end in parts)


def interval_and_pair(draw, pairs):
    """Some pairs next to each other, and one more, as intervals of rows."""
    low = draw.randrange(pairs)
    high = min(pairs, low + 1 + draw.randrange(pairs))
    other = draw.randrange(pairs)
    parts = [(2 * low, 2 * high)]
    return parts if low <= other < high else [*parts, (2 * other, 2 * other + 2)]


def record(kind, answer, mask, rows):
    return bytes([kind - 1]) + answer.to_bytes(8, "big", signed=True) + mask.to_bytes((rows + 7) // 8, "little")


def groups(records):
    """The records in groups, each behind an open gate and a count."""
    for first in range(0, len(records), GROUP):
        group = records[first : first + GROUP]
        yield bytes([1, len(group)]) + b"".join(group)


def write_journal(rows, bodies):
    head = HEADER + rows.to_bytes(2, "big") + bytes([2, SUM, MAX]).ljust(9, b"\0")
    with open("answers.journal", "wb") as journal:
        journal.write(head + b"".join(bodies) + b"\0")


def over_pairs(draw, table, kinds, rows_now, rows_then):
    """Records over the rows that there are now, written over those that there are then."""
    drawn = []
    for kind in kinds:
        parts = interval_and_pair(draw, rows_now // 2)
        drawn.append(record(kind, table.answer(kind, parts), mask_of(parts), rows_then))
    return drawn


def growing(draw, table, widened):
    """The groups of a journal that grows by a row at a time, or of the same records over the last rows."""
    growths = ROWS - FIRST_ROWS
    turns = itertools.cycle([SUM, MAX])
    for rows in range(FIRST_ROWS, ROWS + 1):
        count = RECORDS * (rows - FIRST_ROWS + 1) // (growths + 1) - RECORDS * (rows - FIRST_ROWS) // (growths + 1)
        if rows > FIRST_ROWS and not widened:
            yield b"\x01\x00" + rows.to_bytes(2, "big")
        kinds = itertools.islice(turns, count)
        yield from groups(over_pairs(draw, table, kinds, rows, ROWS if widened else rows))


def nines(masks):
    """Maxima of 9, that over all rows first: without it a set with one new row could make that row the only one above 9."""
    return [record(MAX, 9, mask, ROWS) for mask in [(1 << ROWS) - 1, *masks]]


def alike(draw):
    return nines(draw.getrandbits(ROWS) | 3 for _ in range(RECORDS - 1))


def late(draw):
    """No set of these is within another, but for the first: each has as many of the last rows."""
    front = (1 << ROWS - 64) - 1
    halves = (sum(1 << row for row in draw.sample(range(64), 32)) for _ in range(RECORDS - 1))
    return nines(front | half << ROWS - 64 for half in halves)


def coded(number):
    """Half of the last 64 rows: of two numbers each has two rows that the other one lacks."""
    return sum(3 << ROWS - 64 + 4 * bit + 2 * (number >> bit & 1) for bit in range(16))


def intervals(draw):
    def cut(number):
        ends = sorted(draw.sample(range(ROWS - 64), 24))
        return coded(number) | sum((1 << end) - (1 << begin) for begin, end in zip(ends[::2], ends[1::2]))

    return nines(cut(number) for number in range(RECORDS - 1))


def threes(draw):
    pairs, masks = set(), []
    while len(masks) < RECORDS - 1:
        rows = sorted(draw.sample(range(ROWS), 3))
        new = set(itertools.combinations(rows, 2))
        if new.isdisjoint(pairs):
            pairs |= new
            masks.append(sum(1 << row for row in rows))
    return nines(masks)


# Of one number, over sets of which none is within another.
NINES = {"alike": alike, "late": late, "intervals": intervals, "threes": threes}


def main():
    kind = sys.argv[1]
    draw = random.Random(1)
    table = Table(draw, kind in NINES)
    table.write()
    if kind in ("grown", "widened"):
        widened = kind == "widened"
        write_journal(ROWS if widened else FIRST_ROWS, growing(draw, table, widened))
    elif kind in NINES:
        write_journal(ROWS, groups(NINES[kind](draw)))
    else:
        kinds = [{"sums": SUM, "maxima": MAX}[kind]] * RECORDS
        write_journal(ROWS, groups(over_pairs(draw, table, kinds, ROWS, ROWS)))


if __name__ == "__main__":
    main()

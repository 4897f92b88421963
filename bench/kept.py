#!/usr/bin/env python3
"""Compacts random histories, and compares what is kept with what the definition keeps. bench/kept.sh calls this.

    kept.py PROGRAM KEYS ROUNDS SEED

Works in the folder that it is called in. A round draws a small table and, of the KEYS, separated by commas, some that its schema states, and has the program answer random questions over it, over more
rows in the end than in the beginning in some rounds. `compact` then has to write, byte for byte, the journal of the records that
those before them don't imply, as this page works them out: a sum is implied if its row is in the span of the rows before it, by fractions;
a maximum, if no row of its set may have more, and an earlier answer of this number has all its extreme rows in the set; a minimum as
the maximum of negated numbers, as which its record has it. Over few rows
that is compared with the definition itself: every list of numbers that gives the answers before gives this one. Then both journals are asked
10,000 random questions, a hundred at a time over fresh copies, and have to reply alike, byte for byte. So do their reports, but for the
number of records. The exit status is 1 if something differs."""
import itertools
import json
import os
import random
import shutil
import subprocess
import sys
from dataclasses import dataclass
from fractions import Fraction

SUM, MAX, MIN = 1, 2, 3
KINDS = {SUM: "sum", MAX: "max", MIN: "min"}
ASKED = 10_000
AT_ONCE = 100
# Over so few rows every list of numbers is tried.
FEW = 4
# What is drawn for a key of a schema.
DRAWN = {"width": [1, 2, 4, 2**56], "reach": [2, 3, 5, 4096], "askers": ["inside", "inside", "outside"], "fewest": [2, 3, 3, 4, 6, 1000]}


@dataclass(frozen=True)
class Record:
    """An answer, the place of its column among the secret ones, and the rows that it is over."""

    column: int
    answer: int
    rows: frozenset


@dataclass
class Journal:
    """The rows in force, the kind of each secret column, and the records."""

    rows: int
    kinds: list
    records: list


def read_record(data, at, width):
    mask = int.from_bytes(data[at + 9 : at + 9 + width], "little")
    rows = frozenset(row for row in range(8 * width) if mask >> row & 1)
    return Record(data[at], int.from_bytes(data[at + 1 : at + 9], "big", signed=True), rows)


def read_journal(data):
    """The journal of these bytes, as docs/FORMATS.md has them."""
    assert data[:9] == b"\x01SQAJRNL\x01"
    journal = Journal(int.from_bytes(data[9:11], "big"), [kind for kind in data[12:20] if kind], [])
    at = 20
    while data[at] == 1:
        count, at = data[at + 1], at + 2
        width = (journal.rows + 7) // 8
        if count == 0:
            journal.rows, at = int.from_bytes(data[at : at + 2], "big"), at + 2
        for _ in range(count):
            journal.records.append(read_record(data, at, width))
            at += 9 + width
    return journal


def record_bytes(record, rows):
    mask = sum(1 << row for row in record.rows)
    return bytes([record.column]) + record.answer.to_bytes(8, "big", signed=True) + mask.to_bytes((rows + 7) // 8, "little")


def journal_bytes(journal):
    """The bytes of a journal with these records, in groups of 64 and without a growth."""
    data = b"\x01SQAJRNL\x01" + journal.rows.to_bytes(2, "big") + bytes([len(journal.kinds), *journal.kinds]).ljust(9, b"\0")
    for first in range(0, len(journal.records), 64):
        group = journal.records[first : first + 64]
        data += bytes([1, len(group)]) + b"".join(record_bytes(record, journal.rows) for record in group)
    return data + b"\0"


def reduced(row, forms):
    """What is left of a row once each form has taken its own first place out of it."""
    for place, form in forms:
        if row[place]:
            row = [number - row[place] * other for number, other in zip(row, form)]
    return row


class Sums:
    """The span of the rows of some sums: rows of fractions, each 1 at a place where those after it are 0."""

    def __init__(self, count):
        self.count = count
        self.forms = []

    def implies(self, record):
        return not any(self.left_of(record))

    def left_of(self, record):
        return reduced([Fraction(row in record.rows) for row in range(self.count)], self.forms)

    def take(self, record):
        left = self.left_of(record)
        place = next((row for row, number in enumerate(left) if number), None)
        if place is not None:
            self.forms.append((place, [number / left[place] for number in left]))


class Maxima:
    """Some maxima, and what they say of a row: no number of it is above the least answer of a set that holds it."""

    def __init__(self, count):
        self.count = count
        self.records = []

    def bound(self, row):
        return min((record.answer for record in self.records if row in record.rows), default=None)

    def extremes(self, record):
        return {row for row in record.rows if self.bound(row) == record.answer}

    def implies(self, record):
        bounds = [self.bound(row) for row in record.rows]
        if any(bound is None or bound > record.answer for bound in bounds):
            return False
        equal = [earlier for earlier in self.records if earlier.answer == record.answer]
        return any(self.extremes(earlier) <= record.rows for earlier in equal)

    def take(self, record):
        self.records.append(record)

    def gives_always(self, record):
        """Whether every list of numbers that gives the answers so far gives this one. Of the numbers between two answers, below all or above
        all one stands for the others."""
        known = set(self.records)
        answers = {earlier.answer for earlier in known} | {record.answer}
        numbers = answers | {answer - 1 for answer in answers} | {max(answers) + 1}
        for values in itertools.product(numbers, repeat=self.count):
            agrees = all(max(values[row] for row in earlier.rows) == earlier.answer for earlier in known)
            if agrees and max(values[row] for row in record.rows) != record.answer:
                return False
        return True


def kept(journal):
    """The journal of the records that those before them don't imply."""
    known = [Sums(journal.rows) if kind == SUM else Maxima(journal.rows) for kind in journal.kinds]
    stay = []
    for record in journal.records:
        column = known[record.column]
        implied = column.implies(record)
        if isinstance(column, Maxima) and journal.rows <= FEW:
            assert implied == column.gives_always(record), "bounds and extreme rows say otherwise than the definition"
        if not implied:
            stay.append(record)
        column.take(record)
    return Journal(journal.rows, journal.kinds, stay)


class Draw:
    """What is drawn in a round: the kinds of secret columns, a table, and questions over it."""

    def __init__(self, keys, seed):
        self.draw = random.Random(seed)
        self.rows = self.draw.choice([3, 4, 4, 6, 8, 9, 12, 16, 20, 24])
        self.kinds = [self.draw.choice([SUM, MAX, MIN]) for _ in range(self.draw.randint(1, 3))]
        self.most = self.draw.choice([2, 5, 1000])
        self.cells = []
        self.keys = {key: self.draw.choice(DRAWN[key]) for key in keys if key and self.draw.random() < 0.8}

    def schema(self):
        columns = [{"name": "id", "is": "number"}, {"name": "part", "is": "number"}]
        columns += [{"name": f"s{place}", "is": KINDS[kind]} for place, kind in enumerate(self.kinds)]
        schema = {"columns": columns, **self.keys}
        if SUM in self.kinds and self.draw.random() < 0.3:
            schema["protect"] = [{"column": f"s{self.kinds.index(SUM)}", "where": f"id < {self.rows // 2 + 1}"}]
        return json.dumps(schema)

    def add_rows(self, count):
        for _ in range(count):
            row = len(self.cells)
            numbers = [self.draw.randint(-self.most, self.most) for _ in self.kinds]
            self.cells.append([row, row // 3, *numbers])

    def table(self):
        names = ["id", "part", *(f"s{place}" for place in range(len(self.kinds)))]
        return "".join(",".join(map(str, line)) + "\n" for line in [names, *self.cells])

    def condition(self):
        """A list of rows, an interval, some parts, or everybody."""
        count = len(self.cells)
        shape = self.draw.random()
        if shape < 0.4:
            chosen = self.draw.sample(range(count), self.draw.randint(1, count))
            return "id in (" + ", ".join(map(str, chosen)) + ")"
        if shape < 0.6:
            low, high = sorted(self.draw.sample(range(count + 1), 2))
            return f"id >= {low} and id < {high}"
        parts = range(count // 3 + 1)
        return "part in (" + ", ".join(map(str, self.draw.sample(parts, self.draw.randint(1, len(parts))))) + ")" if shape < 0.9 else "all"

    def questions(self, count):
        lines = []
        for _ in range(count):
            place = self.draw.randrange(len(self.kinds))
            ask = self.draw.choice(["sum", "avg", "sum"]) if self.kinds[place] == SUM else KINDS[self.kinds[place]]
            lines.append(json.dumps({"ask": ask, "column": f"s{place}", "where": self.condition()}))
        return "".join(line + "\n" for line in lines)


def run(program, words, given=""):
    done = subprocess.run([program, *words.split()], input=given, capture_output=True, text=True)
    assert done.returncode == 0, f"{words} ended with {done.returncode}: {done.stderr}"
    return done.stdout


def write(name, text):
    with open(name, "w") as file:
        file.write(text)


def read(name):
    with open(name, "rb") as file:
        return file.read()


def remove(name):
    if os.path.exists(name):
        os.remove(name)


def make_history(program, drawn):
    """A journal over a table that is drawn, over rows that came later in some rounds."""
    for name in ("answers.journal", "answers.spare"):
        remove(name)
    write("schema.json", drawn.schema())
    drawn.add_rows(drawn.rows)
    write("table.csv", drawn.table())
    run(program, "init")
    for _ in range(drawn.draw.choice([0, 0, 1, 2])):
        ask(program, drawn)
        drawn.add_rows(drawn.draw.randint(1, 9))
        write("table.csv", drawn.table())
        run(program, "grow")
    ask(program, drawn)


def ask(program, drawn):
    run(program, f"serve --batch {drawn.draw.choice([1, 3, 64])}", drawn.questions(drawn.draw.choice([0, 20, 100, 400])))


def compacts_as_defined(program):
    """Whether `compact` sends and writes what is due; the numbers of records and of those that are kept."""
    before = read("answers.journal")
    journal = read_journal(before)
    due = kept(journal)
    counts = len(journal.records), len(due.records)
    sent = run(program, "compact")
    met = sent == '{"records":%d,"kept":%d}\n' % counts
    met &= read("answers.spare") == journal_bytes(due)
    met &= read("answers.journal") == before
    return met, counts


def over(program, journal, words, given=""):
    """What is sent over a copy of a journal."""
    shutil.copyfile(journal, "answers.journal")
    return run(program, words, given)


def replies_alike(program, drawn):
    """Whether both journals give the same replies, and the same reports but for the number of records."""
    shutil.move("answers.journal", "old.journal")
    shutil.move("answers.spare", "compacted.journal")
    reports = [over(program, journal, "audit").splitlines()[:-1] for journal in ("old.journal", "compacted.journal")]
    if reports[0] != reports[1]:
        return False
    for _ in range(ASKED // AT_ONCE):
        lines = drawn.questions(AT_ONCE)
        replies = [over(program, journal, "serve --batch 64", lines) for journal in ("old.journal", "compacted.journal")]
        if replies[0] != replies[1]:
            return False
    return True


def stays_compacted(program):
    """Whether a compacted journal is kept as it is."""
    shutil.copyfile("compacted.journal", "answers.journal")
    run(program, "compact")
    return read("answers.spare") == read("compacted.journal")


def main():
    program, keys, rounds, first = sys.argv[1], sys.argv[2].split(","), int(sys.argv[3]), int(sys.argv[4])
    wrong = records = stayed = 0
    for seed in range(first, first + rounds):
        drawn = Draw(keys, seed)
        make_history(program, drawn)
        met, counts = compacts_as_defined(program)
        records, stayed = records + counts[0], stayed + counts[1]
        if not (met and replies_alike(program, drawn) and stays_compacted(program)):
            print(f"seed {seed}: {len(drawn.cells)} rows, {counts[0]} records: something differs")
            wrong += 1
    print(f"{rounds} histories of {records} records, {stayed} kept; {rounds * ASKED} questions over both; {wrong} wrong")
    return 1 if wrong else 0


if __name__ == "__main__":
    sys.exit(main())

#!/usr/bin/env python3
"""Checks the report of `auditor audit` with whole numbers alone, knowing nothing of the program.

Run it in the folder of schema.json, table.csv and answers.journal:  auditor audit | python3 check_report.py
It reads the journal by FORMATS.md. For each row of a column of sums it adds up the printed change over the set of each
record: every total has to be 0, and the change has to move the row. For a column of maxima the printed list, and the
list with any one row less by 1, have to give each record's answer; for one of minima the list, and the list with any one row
more by 1. If a public column counts the people behind each row, that is asked of the rows of fewer people than the schema's `fewest`, or of
one person; and of a column of maxima or minima each answer has to stay if any rows of so few people are less by 1 together, or more.

If the schema says that the askers are inside, one person more counts as few, and of a column of sums each row that may change has a line. Of these
no row of fewer people than `fewest` may always change by one ratio with another row, of one person, who knows her own number. It
says how many records and lines were checked, or which file or line is wrong and why, and ends with 0 or 1.
"""

import csv
import json
import sys
from fractions import Fraction

KINDS = {"sum": 1, "max": 2, "min": 3}
MOST_ROWS = 4096  # of a table
# The word before a list of numbers, and what an answer is of the numbers of its rows.
BOUNDS = {"max": ("high", max), "min": ("low", min)}


class Wrong(Exception):
    """Why a file or a line isn't as it has to be."""


def need(holds, why):
    if not holds:
        raise Wrong(why)


def schema():
    """The schema, an object with the list of its columns."""
    try:
        with open("schema.json", encoding="utf-8") as file:
            found = json.load(file)
        need(all(isinstance(column["name"], str) and isinstance(column["is"], str) for column in found["columns"]), "no schema")
        return found
    except (LookupError, TypeError, ValueError):
        raise Wrong("no schema") from None


def secret_columns():
    """The names and kinds of the secret columns, in order."""
    return [(column["name"], column["is"]) for column in schema()["columns"] if column["is"] in KINDS]


def records_of_table():
    """The header and the rows of the table, as lists of fields."""
    csv.field_size_limit(2**24)  # a field may be as long as a table
    try:
        with open("table.csv", encoding="utf-8-sig", newline="") as file:
            header, *rows = [record for record in csv.reader(file) if record]
    except (csv.Error, ValueError):
        raise Wrong("no table") from None
    need(1 <= len(rows) <= MOST_ROWS, f"no table of 1 to {MOST_ROWS:,} rows")
    return header, rows


def number_of_rows():
    return len(records_of_table()[1])


class People:
    """Who is behind the rows, and which of these are guarded: fewer people than `fewest`, one of whom may ask if the askers are inside."""

    def __init__(self):
        found = schema()
        header, rows = records_of_table()
        columns = [column["name"] for column in found["columns"] if column["is"] == "count"]
        try:
            self.counts = [int(row[header.index(columns[0])].strip(" ")) if columns else 1 for row in rows]
        except (LookupError, ValueError):
            raise Wrong("no number of people for each row") from None
        need(min(self.counts) >= 1, "a row of nobody")
        self.inside = found.get("askers") == "inside"
        self.fewest = found.get("fewest", 2)
        need(are_whole([self.fewest]) and 2 <= self.fewest <= 1000, "no schema")
        self.all = sum(self.counts) if columns else None

    def are_few(self, rows, own=None):
        """Whether what these rows have is guarded, against everybody or against one who knows her own row besides."""
        return sum(self.counts[row] for row in rows) + (own is not None) < self.fewest + self.inside

    def guarded(self):
        """The rows whose number nobody may know who knows none."""
        return [row for row in range(len(self.counts)) if self.are_few([row])]

    def may_know(self, own):
        """Whether somebody may know this row as her own."""
        return self.inside and self.counts[own] == 1


def journal(columns):
    """The bytes of the journal, and the rows that it was made for."""
    with open("answers.journal", "rb") as file:
        data = file.read()
    kinds = bytes(KINDS[kind] for _, kind in columns)
    need(len(data) > 20 and data[:9] == b"\x01SQAJRNL\x01", "no journal")
    need(data[11:20] == bytes([len(kinds)]) + kinds.ljust(8, b"\0"), "the journal is of another table")
    return data, int.from_bytes(data[9:11], "big")


def records(columns, rows):
    """The records of the journal, in order: column, answer, and the rows of the set."""
    data, in_force = journal(columns)
    at = 20
    while data[at : at + 1] == b"\x01":
        count = int.from_bytes(data[at + 1 : at + 2], "big")
        need(count <= 64, f"no group of records at byte {at}")
        at += 2
        if count == 0:
            grown = int.from_bytes(data[at : at + 2], "big")
            need(in_force < grown <= MOST_ROWS, f"no growth at byte {at - 2}")
            in_force, at = grown, at + 2
        size = 9 + (in_force + 7) // 8
        for place in range(at, at + count * size, size):
            yield record(data, place, size, columns, in_force)
        at += count * size
    need(at < len(data), f"the file ends at byte {at}, where a gate has to be")
    need(in_force == rows, "the journal is of another table")


def record(data, at, size, columns, in_force):
    """The record at a byte: column, answer, and the rows of the set, of those that are in force there."""
    text = data[at : at + size]
    need(len(text) == size, f"the file ends within the record at byte {at}")
    bits = int.from_bytes(text[9:], "little")
    chosen = [row for row in range(in_force) if bits >> row & 1]
    need(text[0] < len(columns) and chosen and not bits >> in_force, f"no record at byte {at}")
    return text[0], int.from_bytes(text[1:9], "big", signed=True), chosen


def report():
    """The lines of the report, each an object."""
    with open(0, "rb") as file:
        for text in file:
            try:
                line = json.loads(text)
            except (ValueError, RecursionError):
                raise Wrong("no JSON") from None
            need(isinstance(line, dict), "no object of JSON")
            yield line


def are_whole(numbers):
    """A fraction could be rounded until a total is 0, so none is taken, nor is `true`, which Python takes for 1."""
    return isinstance(numbers, list) and all(type(number) is int for number in numbers)


def check_direction(line, row, rows, sets):
    """The change that the line has, a number for each row."""
    need(are_whole([line.get("row")]) and line["row"] == row, f"not the line of row {row}")
    entries = line.get("direction")
    need(isinstance(entries, list), "no direction")
    change = [0] * rows
    for at, entry in enumerate(entries):
        need(are_whole(entry) and len(entry) == 2 and 0 <= entry[0] < rows, f"entry {at} of the direction is no row and its number")
        place, number = entry
        change[place] = number
    need(len({place for place, _ in entries}) == len(entries), "a row comes twice")
    need(change[row] > 0, "the change doesn't move its row")
    for chosen in sets:
        need(sum(change[place] for place in chosen) == 0, "the change alters an answer")
    return change


def ratios(changes, row):
    """By what all these changes alter a row, but for a factor."""
    column = [change[row] for change in changes]
    first = next((number for number in column if number), 1)
    return tuple(Fraction(number, first) for number in column)


def check_pairs(changes, people):
    """Whoever knows a row of one person mustn't know another one of few. Two rows that these changes alter by different ratios aren't tied."""
    tied = {}
    for row in people.guarded():
        tied.setdefault(ratios(changes, row), []).append(row)
    for rows in tied.values():
        for own in filter(people.may_know, rows):
            others = [row for row in rows if row != own and people.are_few([row], own)]
            need(not others, f"whoever knows the number of row {own} knows that of row {[*others, 0][0]}")


def stated(kind, answer):
    """The answer that a record of a column keeps, as the table has it: a minimum is kept negated."""
    return -answer if kind == "min" else answer


def check_bounds(line, kind, people, answers):
    word, extreme = BOUNDS[kind]
    numbers = line.get(word)
    need(are_whole(numbers) and len(numbers) == len(people.counts), "no list with a whole number for each row")
    for chosen, kept in answers:
        answer = stated(kind, kept)
        need(extreme(numbers[place] for place in chosen) == answer, "the list gives another answer")
        # A few rows less by 1, or more by 1, keep the answer as long as others of the set have it too.
        having = [place for place in chosen if numbers[place] == answer]
        need(not people.are_few(having), f"an answer rests on {'one row' if len(having) == 1 else f'rows {having} alone'}")


def check_sums(lines, name, people, sets):
    """The lines of a column of sums: of each guarded row, and, if the askers are inside, of others that may change, in order."""
    rows, changes = len(people.counts), []
    guarded = set(people.guarded())
    for row in range(rows):
        if row in guarded or people.inside and lines.comes(name, row):
            changes.append(check_direction(lines.of(name), row, rows, sets))
    if people.inside:
        check_pairs(changes, people)


def check_column(lines, column, people, answers):
    """The lines of a column, which come from the report."""
    name, kind = column
    if kind == "sum":
        check_sums(lines, name, people, [chosen for chosen, _ in answers])
    else:
        check_bounds(lines.of(name), kind, people, answers)


class Report:
    """The lines of the report, in turn, and the number of the last one that was taken."""

    def __init__(self):
        self.lines, self.number, self.ahead = report(), 0, []

    def next(self):
        """The next line, or None at the end."""
        self.number += 1
        return self.ahead.pop() if self.ahead else next(self.lines, None)

    def comes(self, name, row):
        """Whether the next line is one of this column and row."""
        if not self.ahead:
            self.number += 1
            self.ahead = [next(self.lines, None)]
            self.number -= 1
        line = self.ahead[0]
        return line is not None and (line.get("column"), line.get("row")) == (name, row)

    def of(self, name):
        """The next line, which has to be one of this column."""
        line = self.next()
        need(line is not None, "the report ends too early")
        need(line.get("column") == name, f"not a line of column {name}")
        return line

    def check_end(self, totals):
        last = self.next()
        need(last == totals and are_whole([*last.values()]), f"the last line has to be {json.dumps(totals)}")
        need(self.next() is None, "there are more lines than the totals")
        self.number -= 1


def main():
    where, lines = "schema.json", Report()
    try:
        columns = secret_columns()
        where = "table.csv"
        people = People()
        rows = len(people.counts)
        where = "answers.journal"
        history = list(records(columns, rows))
        where = None
        for place, column in enumerate(columns):
            check_column(lines, column, people, [(chosen, answer) for of, answer, chosen in history if of == place])
        totals = {"audited": len(history), "columns": len(columns), "rows": rows}
        lines.check_end(totals if people.all is None else totals | {"people": people.all})
    except (Wrong, OSError) as wrong:
        print(f"{where or f'line {lines.number}'}: {wrong.strerror if isinstance(wrong, OSError) else wrong}")
        return 1
    print(f"checked {len(history)} records, {lines.number} lines: each secret is free{' for whoever knows another one' if people.inside else ''}")
    return 0


if __name__ == "__main__":
    sys.exit(main())

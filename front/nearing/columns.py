"""One secret column of a table, and what the report of `auditor audit` shows of it. What doesn't fit is a Fault."""

import csv
import dataclasses
import json
import pathlib

from preparing.faults import Fault, shown

LONGEST_CELL = 2**24


@dataclasses.dataclass(frozen=True)
class Sums:
    """A column of sums: its numbers, and for each row the change that the report prints, as numbers by row; None for a row of several people.
    `people` has how many each row stands for, or is None where each stands for one."""

    numbers: list
    changes: list
    people: list = None


@dataclasses.dataclass(frozen=True)
class Maxima:
    """A column of maxima: its numbers, and for each row the one that the report prints, which no answer lets it pass."""

    numbers: list
    highest: list
    people: list = None


@dataclasses.dataclass(frozen=True)
class Minima:
    """A column of minima: its numbers, and for each row the one that the report prints, which no answer lets it fall below."""

    numbers: list
    lowest: list
    people: list = None


def single_rows(numbers, people):
    """The rows of one person, whose numbers alone are guarded."""
    return [row for row in range(len(numbers)) if people is None or people[row] == 1]


def read_column(report_path, table_path, name):
    """The column of this name, as Sums, Maxima or Minima."""
    numbers, report = numbers_of(table_path, name), report_lines(report_path)
    people = people_of(report[-1]["people"], report_path, table_path) if "people" in report[-1] else None
    lines = [line for line in report if line.get("column") == name]
    highs = [line["high"] for line in lines if "high" in line]
    if highs:
        need(len(lines) == 1 and are_numbers(highs[0], len(numbers)), report_path, name)
        need(all(number <= highest or highest == 0 for number, highest in zip(numbers, highs[0])), report_path, name)
        return Maxima(numbers, highs[0], people)
    lows = [line["low"] for line in lines if "low" in line]
    if lows:
        need(len(lines) == 1 and are_numbers(lows[0], len(numbers)), report_path, name)
        need(all(number >= lowest or lowest == 0 for number, lowest in zip(numbers, lows[0])), report_path, name)
        return Minima(numbers, lows[0], people)
    return Sums(numbers, changes_of(lines, numbers, people, report_path, name), people)


def changes_of(lines, numbers, people, report_path, name):
    """The change of each row of one person. Other rows may have a line too: those of few people, and with askers inside all that may change."""
    single, changes = set(single_rows(numbers, people)), [None] * len(numbers)
    rows = [line.get("row") for line in lines]
    need(all(type(row) is int and 0 <= row < len(numbers) for row in rows) and rows == sorted(set(rows)) and single.issubset(rows), report_path, name)
    for row, line in zip(rows, lines):
        change = change_of(line, row, len(numbers), report_path, name)
        changes[row] = change if row in single else None
    return changes


def people_of(told, report_path, table_path):
    """How many people each row stands for, by the column that the schema beside the table says; all of them have to be as many as the report tells."""
    schema = pathlib.Path(table_path).with_name("schema.json")
    try:
        name = next(column["name"] for column in json.loads(schema.read_text(encoding="utf-8"))["columns"] if column["is"] == "count")
    except (OSError, ValueError, KeyError, TypeError, StopIteration):
        raise Fault(f"{report_path} is of rows of several people, and {schema} names no column with how many: put the table's schema.json there") from None
    people = numbers_of(table_path, name)
    if sum(people) != told or min(people) < 1:
        raise Fault(f"{report_path} isn't of this table: it is of {told:,} people, and {table_path} has {sum(people):,}")
    return people


def need(holds, report_path, name):
    if not holds:
        raise Fault(
            f"{report_path} isn't a whole report of the column {shown(name)} of this table, as auditor audit prints it"
        )


def report_lines(path):
    """The lines of a report, each an object; its last one has the totals."""
    try:
        lines = [json.loads(line) for line in pathlib.Path(path).read_text(encoding="utf-8").splitlines()]
    except (ValueError, RecursionError):
        raise Fault(f"{path} isn't a report: a line of it isn't JSON") from None
    if not lines or not all(isinstance(line, dict) for line in lines) or "audited" not in lines[-1]:
        raise Fault(f"{path} isn't a whole report: its last line doesn't say how much was audited")
    return lines


def numbers_of(path, name):
    """The whole numbers of a column in a table."""
    return cells_of(path, name, int, "whole numbers")


def ends_of(path, name):
    """The end of each row's range in a column of a table: a whole number, or None where the cell is none or empty."""
    return cells_of(path, name, lambda cell: None if cell.strip() in ("", "none") else int(cell), "whole numbers, or none,")


def cells_of(path, name, read, what):
    """Each cell of a column in a table, as it is read."""
    csv.field_size_limit(LONGEST_CELL)
    try:
        with open(path, encoding="utf-8-sig", newline="") as file:
            header, *rows = [record for record in csv.reader(file) if record]
        if name not in header:
            raise Fault(f"{path} has no column {shown(name)}: there are {', '.join(map(shown, header[:40]))}")
        return [read(row[header.index(name)]) for row in rows]
    except (csv.Error, ValueError, IndexError):
        raise Fault(f"{path} isn't a table with {what} in the column {shown(name)}") from None


def change_of(line, row, rows, report_path, name):
    """The change of one line, which has to be that of this row and to raise it."""
    pairs = line.get("direction")
    is_list = isinstance(pairs, list) and all(are_numbers(pair, 2) for pair in pairs)
    need(line.get("row") == row and is_list, report_path, name)
    change = dict(pairs)
    need(len(change) == len(pairs) and all(0 <= place < rows for place in change), report_path, name)
    need(change.get(row, 0) > 0, report_path, name)
    return change


def are_numbers(values, count):
    """Whether this is a list of so many whole numbers."""
    return isinstance(values, list) and len(values) == count and all(type(value) is int for value in values)

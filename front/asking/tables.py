"""Tables at once: the groups of a public column, or the cells by two with all totals over them, as lines, as a table or as CSV."""

import csv
import dataclasses
import fractions
import io

from planning.cells import cells_of
from preparing.choices import COUNT
from preparing.conditions import read_condition

from .questions import Question
from .words import answer_of, decimal, number_words

HATCHED, ALL, EMPTY = "////", "all", "(empty)"
CSV_PLACES = 6


@dataclasses.dataclass(frozen=True)
class Asked:
    """A cell, its question, the number of its rows, or of the people whom they stand for, and the reply."""

    values: tuple
    question: Question
    rows: int
    reply: dict = None


def cells_to_ask(question, rows, publics):
    """The cells that some row is in for which the condition holds, or Wrong."""
    count = next((name for name, kind in publics.items() if kind == COUNT), None)
    publics = {name: kind for name, kind in publics.items() if kind != COUNT}
    holds = read_condition(question.where, publics)
    inside = [row for row in rows if holds(row)]
    sizes = {}
    for row in inside:
        for values in totals_over(tuple(row[name] for name in question.by)):
            sizes[values] = sizes.get(values, 0) + (row[count] if count else 1)
    cells = cells_of(question.by, inside, publics, margins=len(question.by) > 1)
    return [Asked(cell.values, question.over(cell.where), sizes[cell.values]) for cell in cells]


def totals_over(values):
    """The cells that a row with these values is in."""
    found = [()]
    for value in values:
        found = [(*one, other) for one in found for other in (value, None)]
    return found


def ask_cells(cells, ask):
    """The cells with their replies, in their order; the one with the most rows is asked first."""
    replies = {cell: ask(cell.question) for cell in sorted(cells, key=lambda cell: -cell.rows)}
    return [dataclasses.replace(cell, reply=replies[cell]) for cell in cells]


def value_words(value, note):
    """A value of a public column as people read it; None stands for all of them."""
    if value is None:
        return ALL
    return number_words(value, note) if isinstance(value, int) else value or EMPTY


def table_lines(by, cells, notes, words):
    """A table of two columns as lines: the values of the first one below each other, its totals last. `words` says a cell's reply."""
    down, across = ([*dict.fromkeys(cell.values[place] for cell in cells if cell.values[place] is not None), None] for place in (0, 1))
    known = {cell.values: words(cell) for cell in cells}
    grid = [[f"{by[0]} / {by[1]}", *(value_words(value, notes.get(by[1], {})) for value in across)]]
    grid += [[value_words(value, notes.get(by[0], {})), *(known.get((value, other), "") for other in across)] for value in down]
    widths = [max(map(len, column)) for column in zip(*grid)]
    return ["  ".join([line[0].ljust(widths[0]), *(text.rjust(width) for text, width in zip(line[1:], widths[1:]))]).rstrip() for line in grid]


def csv_text(by, cells, ask, note):
    """The cells as CSV: the values, empty for all of them, the rows, the number in the column's unit, and why it isn't answered."""
    text = io.StringIO(newline="")
    writer = csv.writer(text, lineterminator="\n")
    writer.writerow([*by, "rows", ask, "not answered"])
    for cell in cells:
        values = ["" if value is None else EMPTY if value == "" else value for value in cell.values]
        writer.writerow([*values, cell.rows, csv_number(answer_of(cell.reply), note if ask != "count" else {}), reason_of(cell.reply)])
    return text.getvalue()


def csv_number(number, note):
    """A number with its column's decimals, an average with six more; nothing if there is none."""
    if number is None:
        return ""
    places = note.get("decimals") or 0
    exact = fractions.Fraction(number) / 10**places
    return decimal(exact, places if (exact * 10**places).denominator == 1 else places + CSV_PLACES)


def reason_of(reply):
    return next((reply[key] for key in ("denied", "refused") if key in reply), "")

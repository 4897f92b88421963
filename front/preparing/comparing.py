"""`check`: a file of lines, in any order, as an engine may have written it, beside the people whom the lines stand for."""

import csv
import re

from .choices import COUNT, PUBLIC, SECRET
from .condensing import people_words, sizes_words
from .faults import Fault, counted, listed, shown
from .guarding import few_of
from .lines import cells_words, columns_of_lines, condensed, count_of
from .writing import MOST_BYTES

WHOLE = re.compile(r"[+-]?\d{1,19}", re.ASCII)


def check(path, choices_path, lines_path):
    """Says that the lines are those of the people, or raises a Fault that says where they differ.

    It is for a first table: two lines of the same public cells, which a growth makes, are a difference.
    """
    why = "no column of counts is chosen: a row stands for one person then, and there is nothing to compare"
    choices, columns = columns_of_lines(choices_path, why)
    lines = read_lines(lines_path, columns)
    condenser = condensed(path, choices, columns)
    due = {values: due_of(line, columns) for values, line in condenser.lines.items()}
    faults = differences(lines, due, columns)
    if faults:
        raise Fault(f"{lines_path} isn't what the people of {path} give:\n{listed(faults)}")
    sizes = sizes_words([line.people for line in condenser.lines.values()], few_of(choices))
    print(f"{sizes}: they are those of the {condenser.people():,} people of {path}")
    if condenser.dropped.number:
        print(f"in no row, for what they lack: {counted(condenser.dropped.number, 'row')} of {path}")


def due_of(line, columns):
    """What a line is to have in its columns that aren't public: the count, and what is told."""
    told = iter(line.told)
    return [line.people if column.kind == COUNT else next(told) for column in columns if column.kind in SECRET + (COUNT,)]


def read_lines(path, columns):
    """The lines of a file with the header of the table, as pairs of where each stands and its values."""
    found = []
    try:
        with open(path, encoding="utf-8-sig", newline="") as file:
            if file.seek(0, 2) > MOST_BYTES:
                raise Fault(f"{path} has more than {MOST_BYTES:,} bytes, which is the most that a table has")
            file.seek(0)
            reader = csv.reader(file, strict=True)
            header = next(reader, None)
            names = [column.name for column in columns]
            if header != names:
                raise Fault(f"{path}: the header is {', '.join(map(shown, header or []))}, and should be {', '.join(names)}")
            for record in filter(None, reader):
                found.append((reader.line_num, values_of(path, reader.line_num, record, columns)))
    except (csv.Error, UnicodeDecodeError) as error:
        raise Fault(f"{path} isn't CSV in UTF-8: {error}") from None
    return found


def values_of(path, place, record, columns):
    """The values of a line by the kinds of its columns."""
    if len(record) != len(columns):
        raise Fault(f"{path}, line {place:,}: there are {counted(len(record), 'cell')}, and should be {len(columns):,}")
    values = []
    for cell, column in zip(record, columns):
        if column.kind != "text" and not WHOLE.fullmatch(cell.strip()):
            raise Fault(f"{path}, line {place:,}: {column.name} is {shown(cell)}, and should be a whole number")
        values.append(cell if column.kind == "text" else int(cell))
    return values


def differences(lines, due, columns):
    """A sentence for each line that isn't due, and for each that is missing."""
    faults, seen = [], {}
    names = [column.name for column in columns if column.kind in PUBLIC and column.chosen is not None]
    others = [column.name for column in columns if column.kind in SECRET + (COUNT,)]
    for place, values in lines:
        row = dict(zip((column.name for column in columns), values))
        cells = tuple(row[name] for name in names)
        words = cells_words(names, cells)
        if row.get("wave", 1) != 1:
            faults.append(f"line {place:,}: it is of wave {row['wave']}, and a first table has wave 1 alone")
        elif cells in seen:
            faults.append(f"lines {seen[cells]:,} and {place:,} have the same public cells: {words}")
        elif cells not in due:
            faults.append(f"line {place:,}: nobody has {words}")
        else:
            told = [(name, row[name], number) for name, number in zip(others, due[cells]) if row[name] != number]
            faults += [f"line {place:,}, {words}: {name} is {is_now:,}, and should be {number:,}" for name, is_now, number in told]
        seen.setdefault(cells, place)
    missing = {cells: told[others.index(count_of(columns))] for cells, told in due.items() if cells not in seen}
    return faults + [f"no row has {cells_words(names, cells)}, and {people_words(number)} should be in it" for cells, number in missing.items()]

"""`take`: a folder of lines that an engine made by the query of `sql`, without the people themselves.

Nothing here can say whether the counts are those of the people: `check` does, with them.
"""

import pathlib

from .choices import COUNT, PUBLIC, SECRET
from .comparing import read_lines
from .faults import Fault
from .guards import say_readers
from .lines import cells_words, columns_of_lines, count_of, own_lines, write_lines
from .making import MOST_SIZE, say_next
from .protecting import need_totals
from .ranges import need_ranges
from .writing import need_free


def take(path, choices_path, folder, program):
    """Writes the folders of a file of lines, or raises a Fault and leaves nothing behind."""
    choices, columns = columns_of_lines(choices_path, "no column of counts is chosen: count=people, say, names it")
    need_totals(choices["protect"] or [], columns)
    need_free(pathlib.Path(folder))
    rows = rows_taken(path, columns)
    own = own_lines(rows, columns)
    need_ranges([row for _, row in own], [column for column in columns if column.kind in SECRET], [place for place, _ in own])
    write_lines(rows, choices, columns, folder, program, lambda: print(f"{choices[COUNT]}: count, how many people a row stands for, as {path} says"))
    say_readers(path)
    say_next(folder, choices)


def rows_taken(path, columns):
    """The lines of a first table as rows, in the order of their public cells. What can't be one is a Fault."""
    names, count, rows, seen = [column.name for column in columns if column.kind in PUBLIC], count_of(columns), [], {}
    for place, values in read_lines(path, columns):
        row = dict(zip((column.name for column in columns), values))
        cells = tuple(row[name] for name in names)
        if cells in seen:
            raise Fault(f"{path}: lines {seen[cells]:,} and {place:,} have the same public cells: {cells_words(names, cells)}")
        if row.get("wave", 1) != 1:
            raise Fault(f"{path}, line {place:,}: it is of wave {row['wave']}, and a first table has wave 1 alone")
        if not 1 <= row[count] <= MOST_SIZE:
            raise Fault(f"{path}, line {place:,}: {count} is {row[count]:,}, and a row stands for 1 to {MOST_SIZE:,} people")
        beyond = next((column.name for column in columns if column.kind != "text" and abs(row[column.name]) > MOST_SIZE), None)
        if beyond:
            raise Fault(f"{path}, line {place:,}: {beyond} is beyond {MOST_SIZE:,}: keep fewer decimals, or larger units")
        seen[cells] = place
        rows.append(row)
    if not rows:
        raise Fault(f"{path} has a header and no row")
    return sorted(rows, key=lambda row: [row[name] for name in names])

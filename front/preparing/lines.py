"""`make` and `add` with a column of counts: the table's lines stand for people who are alike in all public cells.

The file is read once, however long it is. Newcomers get lines of their own, also where their cells are those of an old line: the
journal's sets are places of lines, and an old line goes on standing for whom it stood for.
"""

import dataclasses
import pathlib

from . import choices as choosing
from .adding import need_schema, number_waves, rows_before, say_next as say_grown, write_longer
from .choices import COUNT, PUBLIC, SECRET
from .coarsening import say_unused
from .condensing import Condenser, people_words, sizes_words
from .faults import Fault, counted, first_numbers, shown
from .guarding import LEAST, few_of, guard_of, say_guard
from .guards import say_of_pair, say_of_secret, say_of_two, say_readers, secrets_apart
from .keys import need_one_table
from .largest import MOST_ROWS
from .limits import say_limits, stated
from .making import MOST_SIZE, chosen_columns, column_words, from_file, say_names, say_next
from .protecting import need_totals, say_totals
from .ranges import range_of, say_ranges
from .splitting import Part, parts, say_parts
from .streaming import People
from .writing import need_free, put_into_place, said_of_program, schema_of, try_program, write_folders

ENOUGH_OWN = 3              # lines of one person, through which a rule can be seen


def stands_for_people(path):
    """Whether a file of choices names a column of counts."""
    return choosing.read(path).get(COUNT) is not None


def columns_of_lines(choices_path, why):
    """The choices for rows that stand for people, and the columns to write by them; a Fault that says why if no column of counts is chosen."""
    choices, columns = chosen_columns(choices_path)
    if choices.get(COUNT) is None:
        raise Fault(why)
    return choices, columns


def make_lines(path, choices_path, folder, program, key=None):
    """Writes the folders of the lines, or raises a Fault and leaves nothing behind."""
    choices, columns = chosen_columns(choices_path)
    if key is not None:
        need_one_table(choices)
    need_totals(choices["protect"] or [], columns)
    need_free(pathlib.Path(folder))
    condenser = condensed(path, choices, columns)
    write_lines(rows_of(condenser, columns), choices, columns, folder, program, lambda: say_condensed(choices, columns, condenser))
    say_readers(path)
    say_next(folder, choices)


def write_lines(rows, choices, columns, folder, program, say_first):
    """Writes the folders of lines, and says what is in them, after what is said first."""
    totals, limits, guard = choices["protect"] or [], stated(choices), guard_of(choices)
    need_apart(rows, columns)
    tables = cut(rows, choices, columns)
    write_folders(folder, columns, schema_of(columns, totals, {**limits, **guard}), tables, program)
    say_first()
    say_lines(rows, columns, few_of(guard))
    say_names(choices)
    print("rows: in the order of their public cells")
    say_limits(limits)
    say_guard(guard)
    say_parts(tables)
    say_totals(totals, columns, tables)
    say_of_own(rows, columns, {**limits, **guard})


def add_lines(path, choices_path, old, new, program):
    """Writes the folder `new`: the tables of the folder `old`, and the lines of newcomers alone at their end."""
    choices, columns = chosen_columns(choices_path)
    old = pathlib.Path(old)
    schema = need_schema(old, columns)
    before = rows_before(old / "table.csv", columns)
    need_free(pathlib.Path(new))
    condenser = condensed(path, choices, columns)
    added = rows_of(condenser, columns)
    wave_words = number_waves(before, added)
    rows = before + added
    if len(rows) > MOST_ROWS:
        raise Fault(f"there would be {counted(len(rows), 'row')}, {len(added):,} of them of newcomers, and a table has at most {MOST_ROWS:,}")
    need_apart(rows, columns)
    need_totals(schema.get("protect", []), columns)
    with put_into_place(new) as beside:
        write_longer(old, beside, columns, added)
        try_program(beside, program)
    said_of_program(program)
    say_condensed(choices, columns, condenser)
    say_joined_cells(before, added, columns)
    say_lines(rows, columns, few_of(schema))
    say_totals(schema.get("protect", []), columns, [Part(rows)])
    say_of_own(rows, columns, schema)
    say_readers(path)
    say_grown(old, new, columns, before, added, wave_words)


def condensed(path, choices, columns):
    """The people of the file as lines. A number outside of the range that people are said to know is a Fault."""
    condenser = Condenser(columns)
    with People(path, choices) as people:
        condenser.read(people)
    need_in_ranges(condenser)
    return condenser


def need_in_ranges(condenser):
    """A Fault for numbers that aren't in the range that people are said to know: the least and the greatest of each column."""
    for place, ends in condenser.ends.items():
        column, known = condenser.secret[place], range_of(condenser.secret[place].chosen)
        for number, row in (ends.least, ends.greatest):
            if not known.has(number):
                raise Fault(
                    f"{column.name}: row {row:,} has a number that isn't in the range {shown(column.chosen['range'])}, and maybe others have. Nobody"
                    " can know such a range. Rows are counted with the header as row 1"
                )


def rows_of(condenser, columns):
    """The lines as rows of a table, in the order of their public cells. A total that is too large is a Fault."""
    names = [column.name for column in condenser.public]
    secret = [column.name for column in condenser.secret]
    count = count_of(columns)
    rows = []
    for values in sorted(condenser.lines):
        line = condenser.lines[values]
        row = {"wave": 1, **dict(zip(names, values)), count: line.people, **dict(zip(secret, line.told))}
        too_large = next((name for name in secret if abs(row[name]) > MOST_SIZE), None)
        if too_large:
            raise Fault(
                f"the total of {too_large} of the {people_words(line.people)} with {cells_words(names, values)} is beyond"
                f" {MOST_SIZE:,}, counted as it is kept: keep fewer decimals, or write larger units into the file"
            )
        rows.append({column.name: row[column.name] for column in columns})
    return rows


def cells_words(names, values):
    """Public cells as people read them."""
    return ", ".join(f"{name} {value if isinstance(value, int) else shown(value)}" for name, value in zip(names, values)) or "no public cell"


def cut(rows, choices, columns):
    """The lines as one table, or in the parts that were chosen. Too many are a Fault that says how they become fewer."""
    if not choices["split by"] and len(rows) > MOST_ROWS:
        raise Fault(
            f"there are {counted(len(rows), 'row')}, and a table has at most {MOST_ROWS:,}: prepare.py lines shows what bands, joined values and"
            ' columns that are left out would give. If nothing coarser will do, choose "split by"'
        )
    return parts(rows, choices["split by"], [column.name for column in columns if column.kind in PUBLIC])


def count_of(columns):
    """The name of the column of counts."""
    return next(column.name for column in columns if column.kind == COUNT)


def own_lines(rows, columns):
    """The lines of one person, with their places counted with the header as row 1."""
    count = count_of(columns)
    return [(place, row) for place, row in enumerate(rows, 2) if row[count] == 1]


def need_apart(rows, columns):
    """A Fault if a secret column follows from another one, or from what everybody sees: over all lines, or over those of one person."""
    seen = [dataclasses.replace(column, kind="number") for column in columns if column.kind == COUNT]
    known = seen + [column for column in from_file(columns) if column.kind in SECRET or column.kind == "number"]
    own = [row for _, row in own_lines(rows, columns)]
    for lines in (rows, own):
        if len(lines) >= ENOUGH_OWN:
            texts = {column.name: [row[column.name] for row in lines] for column in columns if column.kind == "text"}
            secrets_apart(lines, known, texts)


def say_condensed(choices, columns, condenser):
    """A line for each column of the file, and for the people who aren't in any line."""
    for chosen in choices["columns"]:
        print(f"{shown(chosen['from'])}: {column_words(chosen, columns, condenser.changes)}{told_words(chosen)}")
    print(f"{choices[COUNT]}: count, how many people a row stands for")
    if condenser.empty:
        print(f"passed over: {counted(condenser.empty, 'line')} with nothing in it")
    dropped = condenser.dropped
    if dropped.number:
        print(
            f"dropped {counted(dropped.number, 'row')} of {condenser.people() + dropped.number:,}, for what they lack: "
            + ", ".join(f"{shown(title)} {number:,}" for title, number in dropped.lacks.items())
            + f". In the file, with the header as row 1: {first_numbers(dropped.first)}"
        )
    say_unused(choices["columns"], condenser.changes.made)


def told_words(chosen):
    """What a line has of a secret column."""
    return {"sum": ", of each row the total", "max": ", of each row the greatest", "min": ", of each row the least"}.get(chosen["is"], "")


def say_lines(rows, columns, few):
    """How many people the lines stand for, how many are alone, and how many rows stand for so few that they are guarded."""
    count = count_of(columns)
    sizes = [row[count] for row in rows]
    print(f"{sum(sizes):,} people in {sizes_words(sizes, few)}")
    guarded, others = (f"fewer than {few:,} people", "as many or more") if few > LEAST else ("one person", "several people")
    print(f"A row of {guarded} is protected. What is told of a row of {others} fixes nobody's number")


def say_joined_cells(before, added, columns):
    """Says how many of the newcomers' lines have the public cells of an old one."""
    names = [column.name for column in columns if column.kind in PUBLIC and column.chosen is not None]
    old = {tuple(row[name] for name in names) for row in before}
    again = sum(tuple(row[name] for name in names) in old for row in added)
    if again:
        print(f"{counted(again, 'row')} of newcomers: the public cells are those of an old row, which goes on standing for whom it stood for")


def say_of_own(rows, columns, keys):
    """Points out what people may conclude of the lines of one person, as of rows, by the keys of the schema."""
    own = own_lines(rows, columns)
    secret = [column for column in columns if column.kind in SECRET]
    if not own or not secret:
        return
    print(f"Of the {counted(len(own), 'row')} of one person, counted in table.csv with its header as row 1:")
    lines, public = [row for _, row in own], [column.name for column in columns if column.kind in PUBLIC]
    names = [column.name for column in secret]
    for name in names:
        say_of_secret(name, lines, public)
    for place, first in enumerate(names):
        for second in names[place + 1 :]:
            say_of_pair(first, second, lines)
    say_ranges(lines, secret, [place for place, _ in own], keys)
    if any(column.kind == "sum" for column in secret):
        say_of_two(keys)

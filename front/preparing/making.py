"""`make`: does what the choices say and nothing else, and says each change that it made."""

import collections
import dataclasses
import enum
import shlex

from . import choices as choosing
from .cells import FORMS, without_unit
from .choices import COUNT, PUBLIC, SECRET
from .coarsening import coarsening_words, joined, read_bands, say_unused
from .faults import Fault, counted, first_numbers, listed, shown
from .guarding import guard_of, say_guard
from .guards import say_of_two, say_readers, say_what_is_known, secrets_apart
from .keys import CURRENT, KEY, ONLY, keys_of_export, need_one_table, need_told_apart
from .limits import say_limits, stated
from .looking import step
from .names import free
from .ordering import by_public_cells, say_order
from .protecting import need_totals, say_totals
from .ranges import need_ranges, say_ranges
from .reading import Layout, decode, load, read_rows, without_separator_line
from .splitting import parts, say_parts
from .writing import schema_of, write_folders

MOST_COLUMNS, MOST_SECRET, MOST_SIZE = 32, 8, 10**12
DROPPED = object()


class TooFine(Fault):
    """A cell with more decimals than are kept."""


@dataclasses.dataclass
class Column:
    """A column as it is written: its name and kind, and from which place and choices of the file its numbers come."""

    name: str
    kind: str
    place: int = None
    chosen: dict = None
    marks: str = None


class Change(enum.Enum):
    """What may be done to a cell."""

    TRIMMED = enum.auto()
    ROUNDED = enum.auto()
    GAP_KEPT = enum.auto()


@dataclasses.dataclass
class Changes:
    """How often a column was changed in the rows that are kept, and the rows that were dropped, with what they lack."""

    made: collections.Counter = dataclasses.field(default_factory=collections.Counter)
    dropped: dict = dataclasses.field(default_factory=dict)
    fine: dict = dataclasses.field(default_factory=dict)  # what is wrong with the first cell that is too fine, and how many are, by column


def make(path, choices_path, folder, program, key=None):
    """Writes the folders of the table, or raises a Fault and leaves nothing behind. With the title of a key the table may be renewed."""
    choices = choosing.read(choices_path)
    choosing.need_decided(choices)
    table = read_as_chosen(path, choices)
    columns = columns_to_write(choices) if key is None else columns_with_current(choices)
    need_columns(columns)
    totals = choices["protect"] or []
    need_totals(totals, columns)
    changes = Changes()
    rows = convert_all(table, columns, changes) if key is None else list(people_of(table, choices, columns, key, changes).values())
    public = [column.name for column in columns if column.kind in PUBLIC]
    secret = [column for column in columns if column.kind in SECRET]
    secrets_apart(
        rows, from_file(columns), {column.name: [row[column.name] for row in rows] for column in columns if column.kind == "text"}
    )
    places = [number for number, _ in table.rows if number not in changes.dropped]
    need_ranges(rows, secret, places)
    tables = parts(by_public_cells(rows, public), choices["split by"], public)
    limits, guard = stated(choices), guard_of(choices)
    write_folders(folder, columns, schema_of(columns, totals, {**limits, **guard, **({} if key is None else only())}), tables, program)
    say_changes(choices, columns, table, changes)
    say_names(choices)
    say_order()
    say_limits(limits)
    say_guard(guard)
    say_parts(tables)
    say_totals(totals, columns, tables)
    say_what_is_known(rows, public, [column.name for column in secret])
    say_ranges(rows, secret, places, {**limits, **guard})
    if any(column.kind == "sum" for column in secret):
        say_of_two(guard)
    say_readers(path)
    if key is not None:
        say_key()
    say_next(folder, choices)


def say_key():
    """What the key makes of the table."""
    print(
        "keys.csv: the key of each row, for you alone. Keep it beside table.csv, and give it to nobody. current: public number, 1 in"
        " every row; prepare.py renew makes it 0 where somebody leaves or gets another number, which everybody sees"
    )


def say_next(folder, choices):
    """What is written, and what comes next, in its order."""
    split = bool(choices["split by"])
    each, place = ("each folder of ", f"{folder}/PART") if split else ("", str(folder))
    print(f"written: {each}{folder}, with the public columns alone in public. Next, in this order" + (", for each PART:" if split else ":"))
    print(f"  (cd {shlex.quote(place)} && auditor init)     once: makes answers.journal, for the answers")
    print(
        f"  plan.py auditor {shlex.quote(place)}/public WANTED > first.jsonl     before anybody asks, since each answer may close others: of the questions in"
        " WANTED those that would be answered, and in which order"
    )
    print(f"  ask.py {shlex.quote(place)}     asks; door.py --first asks first.jsonl before it lets others ask")


def read_as_chosen(path, choices):
    """The table of the file, by the choices' encoding and separator; its titles have to be those that were looked at."""
    text, _ = without_separator_line(decode(load(path), choices["encoding"]))
    table = read_rows(text, Layout(choices["separator"], choices["untitled"]))
    titles = [column["from"] for column in choices["columns"]]
    if table.titles != titles:
        raise Fault(
            f"the titles of {path} aren't those that the choices were made for:"
            f" {', '.join(shown(title) for title in table.titles[:40])}"
        )
    return table


def columns_to_write(choices):
    """The columns in the file's order, a column of 0 and 1 after each number whose gaps are marked, how many people a line stands for after the
    last public one, and wave last."""
    columns = []
    for place, chosen in enumerate(choices["columns"]):
        if chosen["is"] == "leave out":
            continue
        columns.append(Column(chosen["name"], chosen["is"], place, chosen))
        if chosen["missing"] == "mark":
            known = free(chosen["name"][:26] + "_known", [column["name"] for column in choices["columns"]])
            columns.append(Column(known, "number", place, chosen, marks=chosen["name"]))
    if choices.get(COUNT) is not None:
        after = max((place for place, column in enumerate(columns, 1) if column.kind in PUBLIC), default=0)
        columns.insert(after, Column(choices[COUNT], COUNT))
    if choices["wave"] is not None:
        columns.append(Column("wave", "number"))
    return columns


def chosen_columns(choices_path):
    """The choices of a file, of which none is open, and the columns to write by them."""
    choices = choosing.read(choices_path)
    choosing.need_decided(choices)
    columns = columns_to_write(choices)
    need_columns(columns)
    return choices, columns


def columns_with_current(choices):
    """The columns of a table with a key: in place of wave the public number `current`, which is 1 for whoever is in the file."""
    need_one_table(choices)
    return columns_to_write(choices) + [Column(CURRENT, "number")]


def from_file(columns):
    """The columns whose cells come from the file, so without wave and current."""
    return [column for column in columns if column.chosen is not None]


def only():
    """The key of the schema that keeps every question to those who are there."""
    return {"only": ONLY} if ONLY else {}


def people_of(table, choices, columns, title, changes):
    """The row of each person of an export, by her key. Whose row is dropped for what it lacks isn't among them."""
    keys = keys_of_export(table, choices, title)
    need_told_apart(keys.values())
    rows = convert_all(table, columns, changes)
    kept = [key for number, key in keys.items() if number not in changes.dropped]
    return {key: {**row, KEY: key} for key, row in zip(kept, rows, strict=True)}


def need_columns(columns):
    """A Fault if there are too many columns, none that is public, or two of one name."""
    names = collections.Counter(column.name for column in columns)
    twice = [name for name, number in names.items() if number > 1]
    if twice:
        raise Fault("two columns would have one name: " + ", ".join(twice))
    secret = sum(column.kind in SECRET for column in columns)
    if len(columns) > MOST_COLUMNS or secret > MOST_SECRET or secret == len(columns):
        raise Fault(
            f"a table has at most {MOST_COLUMNS} columns, at most {MOST_SECRET} of them secret and at least one public;"
            f" here it would have {len(columns):,}, {secret:,} of them secret"
        )


def convert_all(table, columns, changes):
    """Every row that is kept, as a value for each name. Cells that can't be followed are one Fault together."""
    rows, faults = [], []
    for number, cells in table.rows:
        row = convert_row(number, cells, columns, changes, faults)
        if row is not None:
            rows.append(row)
    faults = [fine_words(column, *changes.fine[column.name]) for column in columns if column.name in changes.fine] + faults
    if faults:
        raise Fault(listed(faults) + "\nRows are counted as in a spreadsheet: the header is row 1")
    if not rows:
        raise Fault(f"no row is left: {counted(len(changes.dropped), 'row')} dropped for what is missing")
    return rows


def fine_words(column, first, number):
    """One sentence for all cells of a column that are too fine."""
    more = f"; so have {counted(number - 1, 'more cell')} of that column" if number > 1 else ""
    if column.kind not in SECRET:
        return first + more
    if (column.chosen["decimals"] or 0) < choosing.MOST_DECIMALS:
        return f'{first}{more}. Raise "decimals", of which {choosing.MOST_DECIMALS} can be kept'
    return f"{first}{more}. {choosing.TOO_FINE}"


def convert_row(number, cells, columns, changes, faults):
    """The row's values by name, or None if it is dropped or has a fault, which is then noted."""
    row, made, lacking = {}, [], []
    for column in columns:
        if column.place is None:
            row[column.name] = 1
            continue
        try:
            value = convert(cells[column.place], column, made)
        except TooFine as fault:
            first, count = changes.fine.get(column.name, (f"row {number:,}, column {shown(column.chosen['from'])}: {fault}", 0))
            changes.fine[column.name] = first, count + 1
            continue
        except Fault as fault:
            faults.append(f"row {number:,}, column {shown(column.chosen['from'])}: {fault}")
            continue
        if value is DROPPED:
            lacking.append(column.chosen["from"])
        row[column.name] = value
    if lacking:
        changes.dropped[number] = lacking
    if lacking or len(row) < len(columns):
        return None
    changes.made.update(made)
    return row


def convert(cell, column, made):
    """A cell as it is written, DROPPED if its row goes, or a Fault; what was changed is added to what was made."""
    bare = cell.strip()
    missing = bare in (column.chosen["missing is"] or [])
    if column.marks is not None:
        return 0 if missing else 1
    if missing and column.chosen["missing"] == "drop the row":
        return DROPPED
    if missing and column.chosen["missing"] == "mark":
        made.append((column.name, Change.GAP_KEPT))
        return 0
    if column.kind == "text":
        made += [(column.name, Change.TRIMMED)] * (bare != cell)
        return joined(bare, column, made)
    return whole_number(bare, column, made)


def whole_number(cell, column, made):
    """The number of the cell in steps of its column's decimals: exactly, unless a public column is rounded by choice."""
    chosen = column.chosen
    if not cell:
        raise Fault('nothing stands there. If that means that nothing is known, put "" into "missing is"')
    form = FORMS[chosen["written as"]]
    number = form.read(without_unit(cell, chosen["unit"]))
    if number is None:
        raise Fault(f"{shown(cell)} isn't a {form.kind} written as {form.name}")
    if chosen["bands"] is not None:
        return in_size(cell, band_of(cell, number, chosen), 0)
    decimals = chosen["decimals"] or 0
    steps = number * 10**decimals
    if steps.denominator != 1:
        steps = rounded(cell, steps, chosen)
        made.append((column.name, Change.ROUNDED))
    return in_size(cell, int(steps), decimals)


def in_size(cell, number, decimals):
    """The number, if it is one that a table may have."""
    if abs(number) > MOST_SIZE:
        raise Fault(
            f"{shown(cell)} is beyond {MOST_SIZE:,}" + (f", counted in steps of {step(decimals)}" if decimals else "")
        )
    return number


def band_of(cell, number, chosen):
    """The number that the band of a cell begins with."""
    try:
        return read_bands(chosen["bands"]).start(number)
    except Fault as fault:
        raise Fault(f"{shown(cell)}: {fault}") from None


def rounded(cell, steps, chosen):
    """The whole number below, or the nearest one, halves upwards; a Fault if nothing is to be rounded."""
    if chosen["rounded"] == "down":
        return steps.numerator // steps.denominator
    if chosen["rounded"] == "nearest":
        return (2 * steps.numerator + steps.denominator) // (2 * steps.denominator)
    raise TooFine(f"{shown(cell)} has more than {counted(chosen['decimals'] or 0, 'decimal')}, and nothing is rounded")


def say_changes(choices, columns, table, changes):
    """A line for each column, and for the rows that aren't in the table any more."""
    for chosen in choices["columns"]:
        print(f"{shown(chosen['from'])}: {column_words(chosen, columns, changes)}")
    if choices["wave"] is not None:
        print("wave: public number, 1 in every row, for rows that may be added later")
    if table.empty:
        print(f"passed over: {counted(table.empty, 'line')} with nothing in it")
    if changes.dropped:
        lacks = collections.Counter(title for titles in changes.dropped.values() for title in titles)
        print(
            f"dropped {counted(len(changes.dropped), 'row')} of {len(table.rows):,}, for what they lack: "
            + ", ".join(f"{shown(title)} {number:,}" for title, number in lacks.items())
            + f". In the file, with the header as row 1: {first_numbers(list(changes.dropped))}"
        )
    say_unused(choices["columns"], changes.made)


def say_names(choices):
    """Points out a name that says a factor which its numbers haven't, as a file of choices may have it after a rounding."""
    for chosen in choices["columns"]:
        better = choosing.name_in_steps(chosen)
        if chosen["is"] == "number" and not chosen["decimals"] and not chosen["bands"] and better != chosen["name"]:
            print(
                f"CAREFUL: {chosen['name']} says in its name that its numbers are kept times {chosen['name'].rpartition('_x')[2]}, and they are kept"
                f" as they are: whoever goes by it writes conditions that hold for no row. Name it {better}"
            )


def column_words(chosen, columns, changes):
    """What became of one column, in words."""
    if chosen["is"] == "leave out":
        return "left out"
    words = [("secret " if chosen["is"] in SECRET else "public ") + chosen["is"]]
    words += [f"named {chosen['name']}"] * (chosen["name"] != chosen["from"])
    if chosen["is"] != "text":
        words += form_words(chosen)
    words += coarsening_words(chosen, changes.made) + cell_words(chosen, changes)
    gaps = changes.made[chosen["name"], Change.GAP_KEPT]
    beside = next((column.name for column in columns if column.marks == chosen["name"]), None)
    if beside:
        words.append(f"{counted(gaps, 'gap')} kept as 0, with {beside} beside it: 1 if the value is known, else 0")
    return ", ".join(words)


def form_words(chosen):
    """How the numbers of a column are kept."""
    words = []
    if FORMS[chosen["written as"]].kind == "date":
        time = ", without the time of day" if "hh" in chosen["written as"] else ""
        words.append(f"as a number, 20170131 for 31 January 2017{time}")
    if chosen["decimals"] and not chosen["bands"]:
        words.append(f"times {10 ** chosen['decimals']:,}, so in steps of {step(chosen['decimals'])}")
    if chosen["unit"]:
        words.append(f"without its unit {chosen['unit']}")
    return words


def cell_words(chosen, changes):
    """How many cells of a column were changed."""
    words = []
    rounded_cells = changes.made[chosen["name"], Change.ROUNDED]
    if rounded_cells:
        how = "down" if chosen["rounded"] == "down" else "to the nearest"
        words.append(f"{counted(rounded_cells, 'cell')} rounded {how}")
    trimmed = changes.made[chosen["name"], Change.TRIMMED]
    if trimmed:
        words.append(f"{counted(trimmed, 'cell')} without the blanks around it")
    return words

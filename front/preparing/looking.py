"""`look`: says what a CSV file or a sheet of a workbook has in it, and writes down what a person has to decide."""

import collections
import dataclasses
import pathlib

from . import choices as choosing
from . import guarding, limits, reading
from .cells import FORMS, forms_of, unit_of, without_unit
from .faults import Fault, counted, shown
from .guessing import guessed, line_to_copy
from .largest import MOST_ROWS
from .names import names_of
from .reading import Layout, choose_layout, decode, encoding_of, is_empty, load, read_rows, records, titles_of, without_separator_line
from .splitting import say_splits
from .streaming import People, first_piece
from .tallying import MOST_DIFFERENT, Tally, tallies_of
from .workbooks import is_workbook

TOTALS = {"total", "totals", "grand total", "sum", "all", "summe", "gesamt", "insgesamt", "somme", "totale"}


@dataclasses.dataclass
class Seen:
    """What a file has in it: how it is read, its titles, a tally of each column, how many rows there are, the last of them, and the cells of all
    columns if the file is in memory."""

    encoding: str
    said: str
    layout: Layout
    titles: list
    tallies: list
    rows: int
    last: tuple
    empty: int = 0
    columns: list = None


def look(path, encoding=None, separator=None, untitled=None, sheet=None):
    """Prints what the file is and each of its columns, and writes FILE.choices.json beside it."""
    streamed = sheet is None and pathlib.Path(path).stat().st_size > reading.MOST_BYTES
    data = first_piece(path) if streamed else load(path)
    out = pathlib.Path(path).with_suffix(".choices.json")
    if out.exists():
        raise Fault(f"{out} is already there: go on with it, or remove it to look anew")
    found, said = encoding_of(data, sheet) if encoding is None else (encoding, f"{encoding}, as you say")
    text, named = without_separator_line(decode(data, found))
    layout = choose_layout(text, separator or named or ("comma" if is_workbook(data) else None), untitled)
    seen = seen_streaming(path, found, said, layout, text) if streamed else seen_in_memory(found, said, layout, text)
    print(f"encoding: {seen.said}")
    if not is_workbook(data):
        print(f"separator: {layout.separator}" + (", by the file's first line" if named else ""))
    columns = say_seen(seen)
    choices = {
        "encoding": found,
        "separator": layout.separator,
        "untitled": layout.untitled,
        "split by": None,
        "wave": None,
        "protect": choosing.OPEN,
        "columns": columns,
    }
    limits.fill_in(choices)
    choices |= {choosing.COUNT: None, guarding.ASKERS: choosing.OPEN, guarding.FEWEST: None}
    choosing.write(out, choices, fresh=True)
    say_open(out, choices)
    say_guess(out, guessed(choices, seen.tallies, seen.rows))


def seen_in_memory(found, said, layout, text):
    """What a text has in it."""
    table = read_rows(text, layout)
    rows = [cells for _, cells in table.rows]
    return Seen(found, said, layout, table.titles, tallies_of(rows, len(table.titles)), len(rows), table.rows[-1], table.empty, list(zip(*rows)))


def seen_streaming(path, found, said, layout, text):
    """What a file has in it that isn't in memory; `text` is its first piece."""
    titles = titles_of(next(cells for _, cells in records(text, layout.separator) if not is_empty(cells)), layout)
    tallies, seen = [Tally(MOST_DIFFERENT) for _ in titles], Seen(found, said, layout, titles, None, 0, None)
    choices = {"encoding": found, "separator": layout.separator, "untitled": layout.untitled, "columns": [{"from": title} for title in titles]}
    with People(path, choices) as people:
        for number, cells in people:
            if is_empty(cells):
                seen.empty += 1
                continue
            seen.rows, seen.last = seen.rows + 1, (number, cells)
            for tally, cell in zip(tallies, cells):
                tally.add(cell.strip())
    seen.tallies = tallies
    return seen


def say_seen(seen):
    """Prints what a file has in it, and gives the choices on its columns."""
    if seen.layout.untitled != "none":
        print(
            "the header has a title fewer than a row has cells, as R's write.table does it: the"
            f" {seen.layout.untitled} column has none"
        )
    print(f"rows: {seen.rows:,}" + (f"; {counted(seen.empty, 'line')} with nothing in it passed over" if seen.empty else ""))
    say_last_row(*seen.last)
    columns = describe_all(seen)
    if seen.rows > MOST_ROWS:
        say_too_long([column["name"] for column in columns], seen.columns)
    return columns


def say_too_long(names, columns):
    """What can be done with more people than a table has rows."""
    print(
        f"a table has at most {MOST_ROWS:,} rows. With count=people a row stands for all people with the same public cells; prepare.py"
        " lines says how many there would be, and what coarser choices give"
    )
    if columns is not None:
        say_splits(names, columns)


def say_last_row(number, cells):
    """Points out a last row that may be a total, as spreadsheets have one."""
    found = next((cell for cell in cells if cell.strip().rstrip(":").lower() in TOTALS), None)
    if found is not None:
        print(
            f"CAREFUL: row {number:,}, the last, says {shown(found)}: a total isn't a row of the table. Take it out of"
            " the file"
        )


def describe_all(seen):
    """The choices on each column, printed as they are made."""
    columns = []
    for title, name, tally in zip(seen.titles, names_of(seen.titles), seen.tallies):
        column = describe(title, name, tally)
        columns.append(column)
        print(f"  {shown(title)}" + (f", to be named {name}" if name != title else "") + f": {column['seen']}")
    return columns


def describe(title, name, tally):
    """What one column could be. `is` is open, since whether a column is secret can't be seen in its cells."""
    column = {
        "from": title,
        "seen": "",
        "name": name,
        "is": choosing.OPEN,
        "written as": None,
        "unit": None,
        "decimals": None,
        "rounded": None,
        "missing is": None,
        "missing": None,
        "range": choosing.OPEN,
        "bands": None,
        "join": None,
    }
    if not tally.cells:
        column["is"] = "leave out"
        column["seen"] = "nothing stands in it, so it is left out"
        return column
    seen = [tally.words()] + writing_words(column, tally.cells) + text_words(tally.cells)
    if tally.gaps:
        column["missing is"], column["missing"] = sorted(tally.gaps), choosing.OPEN
        seen.append(
            "missing, or so it seems, where it says "
            + ", ".join(f"{shown(cell)} ({number:,})" for cell, number in sorted(tally.gaps.items()))
        )
    if tally.is_each_its_own():
        seen.append("every row has its own value")
    column["seen"] = "; ".join(seen)
    return column


def writing_words(column, numbers):
    """Sets how numbers are written, if most cells are numbers or dates, and says so. `numbers` counts each cell."""
    unit = unit_of(list(numbers))
    bare = collections.Counter()
    for cell, number in sorted(numbers.items()):
        bare[without_unit(cell, unit)] += number
    names, others = forms_of_most(bare)
    if not names:
        few = sum(bare[cell] for cell in others) * 2 < sum(bare.values())
        return ["text" + (", though most of it is numbers or dates, in no one form" if few else "")]
    words = [f"{FORMS[names[0]].kind}s"] + (
        [f"but {counted(len(others), 'value')} not, as {shown(others[0])}"] if others else []
    )
    column["unit"] = unit or None
    column["written as"] = names[0] if len(names) == 1 else choosing.OPEN
    if len(names) > 1:
        words.append(reading_words(bare, names))
    set_decimals(column, bare.keys() - set(others), names, words)
    return words + [f"with the unit {unit}"] * bool(unit)


def reading_words(cells, names):
    """A cell that is another number in another form, and what it would be in each."""
    example = next(cell for cell in cells if len({FORMS[name].read(cell) for name in names}) > 1)
    return f"but {shown(example)} may be " + ", or ".join(
        f"{plain_number(FORMS[name].read(example))} (written as {name})" for name in names
    )


def set_decimals(column, cells, names, words):
    """Keeps as many decimals as the cells are written with; they are open as long as the form is."""
    decimals = [max(FORMS[name].decimals(cell) for cell in cells) for name in names]
    if max(decimals) == 0:
        return
    if len(names) == 1 and decimals[0] == 1 and all(FORMS[names[0]].read(cell).denominator == 1 for cell in cells):
        words.append("each whole, though written with a decimal")
        return
    column["decimals"] = decimals[0] if len(names) == 1 else choosing.OPEN
    if len(names) == 1:
        words.append(f"with {counted(decimals[0], 'decimal')}, kept in steps of {step(decimals[0])}")
    if max(decimals) > choosing.MOST_DECIMALS:
        words.append(f"more decimals than the {choosing.MOST_DECIMALS} that can be kept")


def forms_of_most(numbers):
    """The forms of all cells; or those of the cells that have one, if these are most, and the cells that have none."""
    names = forms_of(list(numbers))
    if names:
        return names, []
    others = [cell for cell in numbers if all(form.read(cell) is None for form in FORMS.values())]
    if sum(numbers[cell] for cell in others) * 2 >= sum(numbers.values()):
        return [], others
    return forms_of(sorted(numbers.keys() - set(others))), others


def text_words(cells):
    """What a number would lose, and some examples, of different cells."""
    words = []
    if any(len(cell) > 1 and cell[0] == "0" and cell.isdigit() for cell in cells):
        words.append("zeros at the front, which text keeps and a number loses")
    return words + ["such as " + ", ".join(shown(cell, 24) for cell in list(cells)[:3])]


def plain_number(number):
    """A number of finitely many decimals, exactly."""
    whole, decimals = number, 0
    while whole.denominator != 1:
        whole, decimals = whole * 10, decimals + 1
    digits = str(abs(whole.numerator)).rjust(decimals + 1, "0")
    sign = "-" if number < 0 else ""
    return sign + (f"{digits[:-decimals]}.{digits[-decimals:]}" if decimals else digits)


def step(decimals):
    """The unit in which numbers of so many decimals are whole: 0.01 for two."""
    return "1" if decimals == 0 else "0." + "0" * (decimals - 1) + "1"


def say_open(out, choices):
    """What is open, a line a choice, and what is set."""
    still_open = choosing.open_choices(choices)
    print(f"written: {out}, with a ? for each choice that is yours: {', '.join(still_open)}; and a range of each secret column")
    lines = [
        ("a column", "text or number: public, anyone who asks can learn every cell; sum, max or min: secret, to be asked for that; or leave out"),
        ("NAME.missing", "what becomes of a row that lacks this cell: drop the row, keep a text as it stands, or mark a number"),
        ("NAME.written as", "in which of two forms its numbers or dates are written"),
        ("NAME.decimals", "how many decimals are kept"),
        ("range", "what people know of a secret number before they ask, as 0 to none if none is below 0, or none; it sets warnings alone"),
        ("protect", "totals that must stay open, whatever is asked, as \"salary where dept = 'QA'\", or none"),
        (guarding.ASKERS, f"{guarding.INSIDE} if people in the table may ask, as staff do of a table of staff: each knows her own number; else {guarding.OUTSIDE}"),
    ]
    for key, words in lines:
        if not key.startswith("NAME.") or any(choice.endswith(key.removeprefix("NAME")) for choice in still_open):
            print(f"  {key:<15} {words}")
    print(f"set for you: {' and '.join(f'{key} {choices[key]}' for key in limits.LIMITS)}, which protect numbers within such a range, at the price of some answers")


def say_guess(out, words):
    """The line that fills everything in."""
    print("All of it at the safest guess, which is only a guess: change what is wrong in this line, and run it.")
    print(f"  {line_to_copy(out, words)}")
    print("prepare.py look --more says more of each choice.")


def say_more():
    """What each choice means and costs."""
    print(
        f"A column is one of: {', '.join(choosing.KINDS)}. text and number are public: anyone who asks can learn every"
        " cell."
    )
    print("sum, max and min are secret whole numbers, to be asked for totals and averages, for the greatest, or for the least.")
    print(
        '"missing" is one of: drop the row; keep (text, as it stands); mark (number: 0, and a column of 0 and 1 beside'
        " it)."
    )
    print(
        'Public columns are coarser with NAME.bands=10, or NAME.join="A+B as AB": prepare.py lines says how many people are alone in their public'
        " cells, and what coarser choices give."
    )
    print(
        '"range" is what people know of a secret number before they ask, as 0 to none if none is below 0: choose'
        ' NAME.range="0 to none", or range=none for every column of which they know no range. It is for the warnings of'
        " make alone: it protects nothing."
    )
    print(
        '"protect" lists totals that must stay open, whatever is asked: choose protect="salary where dept = \'QA\'", once for'
        " each, or protect=none."
    )
    print('"wave" is for a table to which rows may be added later: choose wave=1, and prepare.py add can tell them apart.')
    limits.say_choice()
    guarding.say_choice()
    print(
        "If people move, leave, come back or get other numbers, leave a column out by which they are known, and make the table with"
        " key=TITLE, that column's title: prepare.py renew then writes it anew by each export."
    )
    print('The choices are a file of JSON: an editor sets them, or prepare.py choose CHOICES NAME=KIND .. others="leave out".')

"""`lines`: how many combinations of public cells there are, how many people are alone in theirs, and what each coarser choice gives.

It goes by public columns alone, so nothing that is chosen by it tells of a secret number; a row that lacks a secret number isn't counted, since
`make` drops it.
"""

import collections
import itertools

from . import choices as choosing
from .choices import OPEN
from .choosing import follow, name_by_steps
from .coarsening import read_bands
from .condensing import Condenser
from .guarding import ASKERS, LEAST, OUTSIDE, few_of
from .largest import MOST_ROWS
from .making import columns_to_write
from .streaming import People

MOST_BANDS, FEWEST_BANDS, MOST_WIDTHS = 20, 2, 4
MOST_PAIRED = 6             # public columns, of which each two are left out together
HEADER = ("", "combinations", "of 1", "of 2", "of 3 or more", "people alone")


def say_tries(path, choices_path, words):
    """Prints the table for the choices of the file, changed by further ones as `choose` takes them. Nothing is written."""
    choices = choosing.read(choices_path)
    follow(choices, words)
    name_by_steps(choices)
    columns = columns_to_try(choices)
    condenser = Condenser(columns)
    with People(path, choices) as people:
        condenser.read(people)
    sizes = {values: line.people for values, line in condenser.lines.items()}
    found = [("as chosen" + "".join(f", {word}" for word in words), sizes)] + list(coarser(condenser.public, sizes))
    print_table([(words_of_one, list(one.values())) for words_of_one, one in found], few_of(choices))
    say_next()


def columns_to_try(choices):
    """The columns that are written, if all is chosen that says what a cell becomes."""
    columns = [{**column, "range": None if column["range"] == OPEN else column["range"]} for column in choices["columns"]]
    who = OUTSIDE if choices[ASKERS] == OPEN else choices[ASKERS]
    choosing.need_decided({**choices, "protect": [], ASKERS: who, "columns": columns})
    return columns_to_write(choices)


def coarser(public, sizes):
    """Each coarser choice in words, with how many people have each combination then."""
    for place, column in enumerate(public):
        values = {cells[place] for cells in sizes}
        if len(values) > 1 and column.marks is None:
            yield from of_column(place, column, values, sizes)
    if 2 < len(public) <= MOST_PAIRED:
        for places in itertools.combinations(range(len(public)), 2):
            if all(public[place].marks is None for place in places):
                names = " ".join(f'{public[place].name}="leave out"' for place in places)
                yield names, merged(sizes, {place: lambda value: None for place in places})


def of_column(place, column, values, sizes):
    """What one column can be: bands, its rarer half as one value, or nothing at all."""
    if column.kind == "number":
        for width in widths(column, values):
            shown_width = f"{column.name}.bands={width // 10 ** steps_of(column)}"
            yield shown_width, merged(sizes, {place: lambda value, width=width: value // width})
    elif len(values) > 3:
        rare = rarer_half(place, sizes)
        yield f"{column.name}: its {len(rare)} rarest values as one", merged(sizes, {place: lambda value: None if value in rare else value})
    yield f'{column.name}="leave out"', merged(sizes, {place: lambda value: None})


def steps_of(column):
    """How many decimals the numbers of a column are kept with."""
    return 0 if column.chosen["bands"] else column.chosen["decimals"] or 0


def widths(column, values):
    """Widths of 1, 2 or 5 times a power of ten that make 2 to 20 bands of the values, fewer than there are values, the narrowest first.

    A column of bands can have wider ones alone, into which its own fit.
    """
    bands = read_bands(column.chosen["bands"]) if column.chosen["bands"] else None
    if bands and not bands.width:
        return []
    unit = bands.width if bands else 10 ** steps_of(column)
    tried = (lead * 10**power * (1 if bands else unit) for power in range(13) for lead in (1, 2, 5))
    fit = [width for width in tried if width > unit and width % unit == 0 and FEWEST_BANDS <= len({value // width for value in values}) <= MOST_BANDS]
    return [width for width in fit if len({value // width for value in values}) < len(values)][:MOST_WIDTHS]


def rarer_half(place, sizes):
    """The half of a column's values that fewer people have."""
    people = collections.Counter()
    for cells, number in sizes.items():
        people[cells[place]] += number
    return {value for value, _ in sorted(people.items(), key=lambda item: (item[1], item[0]))[: (len(people) + 1) // 2]}


def merged(sizes, changes):
    """How many people have each combination, once the values at some places are changed."""
    found = collections.Counter()
    for cells, number in sizes.items():
        found[tuple(changes[place](value) if place in changes else value for place, value in enumerate(cells))] += number
    return found


def print_table(tries, few):
    """The table: a line for each choice, the choices as they are first and the others with the fewest combinations last. Of fewer people than
    `few` a row is guarded."""
    first, *others = [(words, *counts(sizes, few)) for words, sizes in tries]
    lines = [(*HEADER, *guarded_header(few))] + [tuple(map(str_of, line)) for line in [first] + sorted(others, key=lambda line: -line[1])]
    widest = [max(len(line[place]) for line in lines) for place in range(len(lines[0]))]
    for line in lines:
        print("  ".join(cell.ljust(width) if place == 0 else cell.rjust(width) for place, (cell, width) in enumerate(zip(line, widest))).rstrip())


def guarded_header(few):
    return [f"of fewer than {few:,}"] if few > LEAST else []


def counts(sizes, few):
    """How many combinations, how many of them of one person, of two, of three or more, what share of the people is alone, and, if more are guarded
    than these, how many are."""
    ones, twos, people = sum(size == 1 for size in sizes), sum(size == 2 for size in sizes), sum(sizes)
    guarded = [sum(size < few for size in sizes)] if few > LEAST else []
    return len(sizes), ones, twos, len(sizes) - ones - twos, f"{100 * ones / people:.2f} %", *guarded


def str_of(cell):
    return cell if isinstance(cell, str) else f"{cell:,}"


def say_next():
    """What the table is for."""
    print("Whoever is alone in her public cells can be found by them, though not her secret numbers.")
    print(f"With count=people each combination is a row, and a table has at most {MOST_ROWS:,}.")
    print("Try choices together as further arguments, as prepare.py lines FILE CHOICES age.bands=10; prepare.py choose writes them down.")

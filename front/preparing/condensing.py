"""From people to lines: one for each combination of public cells that occurs, with how many people it stands for, and of each secret column
their total, or the greatest or the least of their numbers.

What is in memory goes by the combinations, and not by the people.
"""

import collections
import dataclasses
import math
import operator

from .cells import FORMS
from .choices import OPEN, PUBLIC, SECRET
from .faults import MOST_SHOWN, Fault, counted, listed, shown
from .guarding import few_words
from .making import DROPPED, Changes, TooFine, convert, fine_words
from .reading import is_empty

MOST_LINES = 100_000        # combinations that are kept in memory
MOST_KNOWN = 200_000        # ways of writing public cells that are kept in memory
DIGITS = 12                 # of a number that is surely within the limit
TOLD = {"sum": operator.add, "max": max, "min": min}


@dataclasses.dataclass(slots=True)
class Line:
    """How many people have the same public cells, and for each secret column what is told of them together."""

    people: int = 0
    told: list = None


@dataclasses.dataclass(slots=True)
class Known:
    """Public cells as they stand in the file: their line, or None if their people aren't kept, what was changed, and how many people have them."""

    line: Line
    made: list
    lacking: list
    people: int = 0


@dataclasses.dataclass
class Ends:
    """The least and the greatest number of a column of which people know a range, each with its row."""

    least: tuple = (math.inf, None)
    greatest: tuple = (-math.inf, None)

    def add(self, number, row):
        if number < self.least[0]:
            self.least = number, row
        if number > self.greatest[0]:
            self.greatest = number, row


@dataclasses.dataclass
class Dropped:
    """How many rows aren't kept, the first of them, and what they lack."""

    number: int = 0
    first: list = dataclasses.field(default_factory=list)
    lacks: collections.Counter = dataclasses.field(default_factory=collections.Counter)

    def add(self, number, lacking):
        self.number += 1
        self.lacks.update(lacking)
        if len(self.first) <= MOST_SHOWN:
            self.first.append(number)


class Condenser:
    """Takes people one by one. `lines` has a Line for each combination of the values of the public columns, in their order."""

    def __init__(self, columns):
        self.columns = columns
        self.public = [column for column in columns if column.kind in PUBLIC and column.chosen is not None]
        self.secret = [column for column in columns if column.kind in SECRET]
        self.told = [TOLD[column.kind] for column in self.secret]
        self.readers = [(column.place, reader_of(column)) for column in self.secret]
        self.lines, self.known, self.changes, self.dropped = {}, {}, Changes(), Dropped()
        self.empty = 0
        self.ends = {place: Ends() for place, column in enumerate(self.secret) if column.chosen["range"] not in (None, OPEN)}
        self.faults = []

    def read(self, rows):
        """Condenses rows with their numbers. Cells that can't be followed are one Fault together, the first twenty of them."""
        places = [column.place for column in self.public]
        key_of = operator.itemgetter(*places) if places else lambda cells: ()
        known, take = self.known, self.take
        for number, cells in rows:
            if not cells:
                self.empty += 1
                continue
            key = key_of(cells)
            found = known.get(key) or self.first(number, cells, key)
            if found is not None:
                take(number, cells, found)
            if self.faults and len(self.faults) >= MOST_SHOWN:
                break
        self.need_followed()
        for known in self.known.values():
            self.changes.made.update({made: known.people * times for made, times in collections.Counter(known.made).items()})

    def first(self, number, cells, key):
        """What public cells mean that weren't seen before, or None if there is nothing in the row or a cell can't be followed."""
        if is_empty(cells):
            self.empty += 1
            return None
        values, made, lacking = [], [], []
        for column in self.public:
            value = self.followed(number, cells[column.place], column, made)
            if value is None:
                return None
            values.append(value)
            lacking += [column.chosen["from"]] * (value is DROPPED)
        known = Known(None if lacking else self.line_of(tuple(values)), made, lacking)
        if len(self.known) < MOST_KNOWN and not is_empty(cells[column.place] for column in self.public):
            self.known[key] = known
        elif not lacking:
            self.changes.made.update(made)
        return known

    def followed(self, number, cell, column, made):
        """The value of a cell, or None with the fault noted."""
        try:
            if "\0" in cell:
                raise Fault("a byte 0 stands there: the file isn't text")
            return convert(cell, column, made)
        except TooFine as fault:
            first, many = self.changes.fine.get(column.name, (f"row {number:,}, column {shown(column.chosen['from'])}: {fault}", 0))
            self.changes.fine[column.name] = first, many + 1
        except Fault as fault:
            self.faults.append(f"row {number:,}, column {shown(column.chosen['from'])}: {fault}")
        return None

    def line_of(self, values):
        """The line of these public values, a new one for the first who has them."""
        line = self.lines.get(values)
        if line is None:
            if len(self.lines) >= MOST_LINES:
                raise Fault(too_many_words(self.public, self.lines))
            line = self.lines[values] = Line()
        return line

    def take(self, number, cells, known):
        """One person, whose public cells are known."""
        numbers = [read(cells[place]) for place, read in self.readers]
        if None in numbers or known.lacking:
            numbers = self.looked_at(number, cells, numbers, known.lacking)
            if numbers is None:
                return
        known.people += 1
        line = known.line
        line.people += 1
        line.told = [both(one, other) for both, one, other in zip(self.told, line.told, numbers)] if line.told else numbers
        for place, ends in self.ends.items():
            ends.add(numbers[place], number)

    def looked_at(self, row, cells, numbers, lacking):
        """The secret numbers of a row of which some aren't digits alone; None if it isn't kept, or has a cell that can't be followed."""
        lacking = list(lacking)
        for place, column in enumerate(self.secret):
            if numbers[place] is None:
                numbers[place] = self.followed(row, cells[column.place], column, [])
                lacking += [column.chosen["from"]] * (numbers[place] is DROPPED)
        if None in numbers:
            return None
        if lacking:
            self.dropped.add(row, lacking)
            return None
        return numbers

    def need_followed(self):
        """A Fault that names the cells that can't be followed, or says that nobody is left."""
        fine = [fine_words(column, *self.changes.fine[column.name]) for column in self.columns if column.name in self.changes.fine]
        if fine or self.faults:
            more = "\nThe rest of the file isn't read" if len(self.faults) >= MOST_SHOWN else ""
            raise Fault(listed(fine + self.faults) + more + "\nRows are counted as in a spreadsheet: the header is row 1")
        self.lines = {values: line for values, line in self.lines.items() if line.people}
        if not self.lines:
            dropped = f"no row is left: {counted(self.dropped.number, 'row')} dropped for what is missing"
            raise Fault(dropped if self.dropped.number else "the file has a header and no row")

    def people(self):
        """How many people the lines stand for."""
        return sum(line.people for line in self.lines.values())


def reader_of(column):
    """A function that reads a cell as most are written, digits alone, maybe with a decimal mark, and gives None for any other one."""
    form, decimals = FORMS[column.chosen["written as"]], column.chosen["decimals"] or 0
    missing, mark = frozenset(column.chosen["missing is"] or ()), getattr(form, "decimal", "")
    factor, factors = 10**decimals, [10 ** (decimals - places) for places in range(decimals + 1)]

    def read(cell):
        if cell.isdigit() and len(cell) + decimals <= DIGITS and cell.isascii() and cell not in missing:
            return int(cell) * factor
        bare = cell[1:] if cell[:1] == "-" else cell
        whole, point, part = bare.partition(mark) if mark else (bare, "", "")
        digits = whole + part
        plain = digits.isdigit() and digits.isascii() and whole and (part or not point)
        if not plain or len(part) > decimals or len(whole) + decimals > DIGITS or cell in missing:
            return None
        number = int(digits) * factors[len(part)]
        return -number if bare is not cell else number

    return read


def too_many_words(public, lines):
    """Why so many combinations can't be kept, and which columns have most values."""
    values = {column.name: len({cells[place] for cells in lines}) for place, column in enumerate(public)}
    most = sorted(values.items(), key=lambda item: -item[1])[:5]
    return (
        f"there are more than {MOST_LINES:,} combinations of public cells. The columns with most different values: "
        + ", ".join(f"{name} ({number:,})" for name, number in most)
        + ". Leave one out, choose bands for a number, or join values of a text"
    )


def people_words(number):
    """How many people, in words."""
    return "1 person" if number == 1 else f"{number:,} people"


def sizes_words(sizes, few):
    """How many lines there are of one, two, three or more people, of the numbers of people of each, and of how many fewer than `few` are."""
    ones, twos = sum(size == 1 for size in sizes), sum(size == 2 for size in sizes)
    return f"{counted(len(sizes), 'row')}: {ones:,} of one person, {twos:,} of two, {len(sizes) - ones - twos:,} of three or more" + few_words(sizes, few)

"""Tables of too many rows, cut into parts by public columns.

No question goes over two parts, so each is a table with a journal of its own.
"""

import collections
import dataclasses
import itertools

from .faults import Fault, counted, listed, shown
from .largest import MOST_ROWS
from .names import free, plain

FEWEST_ROWS_A_PART = 20
SMALL_PART = 3
MOST_TRIED = 30
NO_SPLIT = (
    "Or leave out rows in the file itself, or add a column to it that numbers the rows from 1 to 20, or as many parts as it takes, again and again, and"
    " split by that"
)


@dataclasses.dataclass(frozen=True)
class Part:
    """A table: the rows, and if it is one of several the name of its folder and the values that its rows share, in words."""

    rows: list
    name: str = ""
    values: str = ""


def sizes_by(columns):
    """How many rows each value, or each pair of values, has; None if that isn't parts worth having."""
    sizes = collections.Counter(zip(*columns))
    if max(sizes.values()) > MOST_ROWS or len(sizes) * FEWEST_ROWS_A_PART > sum(sizes.values()):
        return None
    return sizes


def splits(names, columns):
    """The columns, or if none will do the pairs of columns, by which no part has too many rows."""
    coarse = [place for place, cells in enumerate(columns) if len(set(cells)) * FEWEST_ROWS_A_PART <= len(cells)]
    for together in (1, 2):
        found = []
        for places in itertools.combinations(coarse[:MOST_TRIED], together):
            sizes = sizes_by([columns[place] for place in places])
            if sizes:
                found.append(([names[place] for place in places], sizes))
        if found:
            return found
    return []


def say_splits(names, columns):
    """Prints by which columns a table that is too long can be cut."""
    print(f'a table has at most {MOST_ROWS:,} rows: "split by" has to name a public column that cuts it. These would:')
    found = splits(names, columns)
    for together, sizes in found:
        print(
            f"  split by={','.join(together)}: {counted(len(sizes), 'part')} of {min(sizes.values()):,} to"
            f" {max(sizes.values()):,} rows"
        )
    if not found:
        print(f"  none, nor two together. {NO_SPLIT}")


def parts(rows, by, public):
    """The table cut by the columns `by`; in one part without a name if there are none."""
    if not by:
        if len(rows) > MOST_ROWS:
            need_split(rows, public)
        return [Part(rows)]
    tables = collections.defaultdict(list)
    for row in rows:
        tables[tuple(row[name] for name in by)].append(row)
    long = [
        f"{values_words(by, values)}: {len(table):,} rows" for values, table in tables.items() if len(table) > MOST_ROWS
    ]
    if long:
        raise Fault(f"parts that still have more than {MOST_ROWS:,} rows:\n{listed(long)}")
    found, taken = [], {"public"}
    for values, table in tables.items():
        name = free(plain("_".join(map(str, values)), "part"), taken)
        taken.add(name)
        found.append(Part(table, name, values_words(by, values)))
    return found


def need_split(rows, public):
    """A Fault for too many rows: that people who are alike may share one, and by what the rows can be cut, or that they can't be."""
    alike = "choose count=people, so that one stands for all people with the same public cells"
    columns = [[row[name] for row in rows] for name in public]
    if not splits(public, columns):
        raise Fault(
            f"{len(rows):,} rows are left, a table has at most {MOST_ROWS:,}, and no public column, nor two together, cuts them into parts of"
            f" {FEWEST_ROWS_A_PART} to {MOST_ROWS:,}: {alike}. {NO_SPLIT}"
        )
    say_splits(public, columns)
    raise Fault(f'{len(rows):,} rows are left, and a table has at most {MOST_ROWS:,}: {alike}, or "split by"')


def values_words(by, values):
    return " and ".join(f"{name} {shown(value)}" for name, value in zip(by, values))


def say_parts(found):
    """A line for each part: its folder, its rows, and whether there are too few to be asked about."""
    for part in found:
        if part.name:
            few = ": so few that hardly a question will be answered" if len(part.rows) <= SMALL_PART else ""
            rows = counted(len(part.rows), "row")
            print(f"{part.name}: the {rows} with {part.values}, a table with a journal of its own{few}")

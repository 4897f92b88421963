"""What is near a question: the same over other rows, by public columns alone.

A value is joined to those of a column, or taken out, an end of an interval is moved to another number that the column has, a
condition is dropped; over a table that grew, the rows of a later wave are left out. How far a question is from another is how many
rows are in one of both and not in the other.
"""
import dataclasses
import itertools

from .parts import comparison, joined, parts_of

WAVE = "wave"                       # the public number that rows of a later time have greater
ENDS = 5                            # numbers on either side to which an end is moved
PAIRED = 12                         # values of which two are joined at once


@dataclasses.dataclass(frozen=True)
class Near:
    """A condition, its rows, and how many of them are more and fewer than those of the question it is near to."""

    where: str
    rows: int
    more: int
    fewer: int

    @property
    def distance(self):
        return self.more + self.fewer


def near(where, columns, least=0):
    """The conditions near one, the nearest first, each over another set of at least so many rows. Wrong if it isn't a condition."""
    parts = parts_of(where, columns.publics)
    return nearest(parts, [*changed(parts, columns), *without_one(parts), *earlier(where, parts, columns)], columns, least)


def merged(where, columns, least=0):
    """Conditions over all rows of this one and those of one or two other values of a column, or of a wider interval."""
    parts = parts_of(where, columns.publics)
    found = nearest(parts, [*changed(parts, columns), *with_two(parts, columns)], columns, least)
    return [one for one in found if not one.fewer]


def nearest(parts, others, columns, least):
    """Some conditions by their distance from the question's parts, one for each set of rows."""
    known = {}
    masks = {part: part.rows(columns) for part in {*parts, *(part for other in others for part in other)}}
    here = rows_of(parts, masks, columns)
    for other in others:
        rows = rows_of(other, masks, columns)
        if rows != here and rows not in known and columns.are_enough(rows, max(least, 1)):
            known[rows] = Near(joined(other), rows, (rows & ~here).bit_count(), (here & ~rows).bit_count())
    return sorted(known.values(), key=lambda one: one.distance)


def rows_of(parts, masks, columns):
    rows = columns.everyone
    for part in parts:
        rows &= masks[part]
    return rows


def changed(parts, columns):
    """The parts with one comparison changed."""
    for place, part in enumerate(parts):
        for other in others_of(part, columns):
            yield [*parts[:place], other, *parts[place + 1:]]


def others_of(part, columns):
    """The comparisons that one may be changed to."""
    if part.how in ("=", "in"):
        for value in columns.values(part.name):
            others = set(part.values) ^ {value}
            if others:
                yield comparison(part.name, "in", *sorted(others))
    elif part.how in ("<", "<=", ">", ">="):
        numbers = list(columns.values(part.name))
        below = [number for number in numbers if number < part.values[0]][-ENDS:]
        above = [number for number in numbers if number > part.values[0]][:ENDS]
        yield from (comparison(part.name, part.how, number) for number in below + above)


def with_two(parts, columns):
    """The parts with two values more joined to those of a column, the two of the first dozen that has the fewest rows."""
    for place, part in enumerate(parts):
        if part.how not in ("=", "in"):
            continue
        known = columns.values(part.name)
        others = sorted((value for value in known if value not in part.values), key=lambda value: known[value].bit_count())[:PAIRED]
        for pair in itertools.combinations(others, 2):
            yield [*parts[:place], comparison(part.name, "in", *sorted([*part.values, *pair])), *parts[place + 1:]]


def without_one(parts):
    """The parts with one dropped."""
    for place in range(len(parts)):
        yield [*parts[:place], *parts[place + 1:]]


def earlier(where, parts, columns):
    """The parts over the rows of earlier waves, if the table has waves and no part speaks of them."""
    if columns.publics.get(WAVE) != "number" or any(part.name == WAVE for part in parts):
        return
    for wave in list(columns.values(WAVE))[:-1]:
        yield [*parts, comparison(WAVE, "<=", wave)]

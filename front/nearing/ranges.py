"""How far a number is shown to be open within a range that people know, with whole numbers alone.

A change that alters no answer may be added as often as every number stays in the range. `None` stands for no end.
"""

from typing import NamedTuple

from preparing.faults import Fault, listed

from .columns import Maxima, Minima


class Range(NamedTuple):
    """The least and the greatest number that people hold for possible."""

    low: int | None
    high: int | None

    def has(self, number):
        return (self.low is None or self.low <= number) and (self.high is None or number <= self.high)

    def room(self, number, step):
        """How far a number may go in the direction of a step, upwards or downwards."""
        end = self.high if step > 0 else self.low
        return None if end is None else abs(end - number)

    def of_total(self, people):
        """The range of what so many people come to, each of them in this one."""
        return Range(*(None if end is None else people * end for end in self))


def for_each(known, rows):
    """The same range for each of so many rows."""
    return [known] * rows


def need_inside(numbers, known):
    """A Fault if a number isn't in the range that people are said to know of it."""
    outside = [f"row {row} has {number:,}" for row, (number, own) in enumerate(zip(numbers, known)) if not own.has(number)]
    if outside:
        raise Fault(f"not all numbers are in this range, counting rows from 0 without the header:\n{listed(outside)}")


def times(change, numbers, known):
    """How often a change may be added to the numbers, each within its range."""
    fits = [(known[row].room(numbers[row], step), abs(step)) for row, step in change.items()]
    return min((room // step for room, step in fits if room is not None), default=None)


def shown_by(column, known):
    """For each row the range in which its number is shown to be open: other tables with the same answers have both ends. `known` has each row's.
    What stands there for a row of several people of a column of maxima or minima means nothing, and of one of sums it is None."""
    if isinstance(column, Maxima):
        need_one_high_end(known)
        return [shown_of_maximum(*one) for one in zip(column.numbers, column.highest, known)]
    if isinstance(column, Minima):
        need_one_low_end(known)
        return [shown_of_minimum(*one) for one in zip(column.numbers, column.lowest, known)]
    return [change and shown_of_change(row, change, column.numbers, known) for row, change in enumerate(column.changes)]


def shown_of_change(row, change, numbers, known):
    """The ends that adding one change, and taking it off, shows."""
    taken_off = {place: -step for place, step in change.items()}
    up, down = times(change, numbers, known), times(taken_off, numbers, known)
    number, own = numbers[row], change[row]
    return Range(None if down is None else number - down * own, None if up is None else number + up * own)


def need_one_high_end(known):
    """A Fault if people know other high ends of different rows of a column of maxima: such an end may say whose an answer is."""
    if len({own.high for own in known}) > 1:
        raise Fault("of a column of maxima the high end has to be one for all rows: give a number, or none")


def need_one_low_end(known):
    """The same of the low ends of a column of minima."""
    if len({own.low for own in known}) > 1:
        raise Fault("of a column of minima the low end has to be one for all rows: give a number, or none")


def shown_of_maximum(number, highest, known):
    """Any number of the range up to the one that is printed. A row that no set holds is printed as 0."""
    return known if highest == 0 < number else Range(known.low, highest)


def shown_of_minimum(number, lowest, known):
    """Any number of the range from the one that is printed on. A row that no set holds is printed as 0."""
    return known if number < 0 == lowest else Range(lowest, known.high)


def distance(number, shown):
    """How far from the number the farther end of what is shown is."""
    if None in shown:
        return None
    return max(number - shown.low, shown.high - number)


def is_open(number, shown, percent):
    """Whether some number is shown that differs by so many per cent of this one, and by 1 at least."""
    far = distance(number, shown)
    return far is None or far > 0 and far * 100 >= percent * abs(number)

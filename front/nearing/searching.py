"""A search for changes that leave every answer and show a number to be open: each alone, and by linear programs (of python3-scipy).

The changes that the report prints span all of them. Those with large numbers are made shorter. Each is tried alone, in whole
numbers; then a program says how often each is to be added, but for those whose numbers are beyond the ranges. These counts are
rounded, so the ends of the range are moved inwards by what rounding may do, for each number that can be kept so far from
them. What is found is added up again in whole numbers and has to stay in the range: nothing rests on the solver. What it
doesn't find may be there all the same.
"""

import functools
import warnings

import numpy
from scipy.optimize import LinearConstraint, milp
from scipy.sparse import csc_array, hstack, identity, vstack

from preparing.faults import counted

from .ranges import Range, times
from .shortening import greatest, shortened

GREATEST_ENTRY = 2**53  # what a double still holds exactly
SHARES = (1, 0.25, 0.0625, 0)  # of the most that rounding may do, one tried after the other
PATIENCE = 10  # seconds for one program


class Search:
    """The printed changes of a column, and the room that each number has in the range."""

    def __init__(self, column, known):
        self.numbers, self.known = column.numbers, known
        different = {upright(change): change for change in column.changes if change}
        self.tried, self.shorter = shortened(list(different.values()))
        self.changes = [change for change in self.tried if greatest(change) < GREATEST_ENTRY and self.may_fit(change)]
        entries = [(step, row, place) for place, change in enumerate(self.changes) for row, step in change.items()]
        steps, rows, places = zip(*entries) if entries else ((), (), ())
        shape = (len(self.numbers), len(self.changes))
        self.matrix = csc_array((numpy.array(steps, float), (rows, places)), shape=shape)
        rooms = ([own.room(number, sign) for number, own in zip(self.numbers, known)] for sign in (-1, 1))
        self.down, self.up = (numpy.array([numpy.inf if room is None else room for room in side], float) for side in rooms)

    def words(self):
        """What is tried, in words."""
        alone = len(self.tried) - len(self.changes)
        return (
            f"searched over {counted(len(self.tried), 'change')}"
            + f", {self.shorter:,} of them made shorter" * bool(self.shorter)
            + f", {alone:,} of them tried alone, since their numbers are beyond the ranges" * bool(alone)
        )

    def may_fit(self, change):
        """Whether no number of a change is greater than its row's whole range, or than what all rows have from their ends."""
        return all(abs(step) <= self.span(row) for row, step in change.items())

    def span(self, row):
        """How far a row's number could go at most; where one end isn't known as far as all numbers together are from their ends."""
        own = self.known[row]
        return self.all_rooms if None in own else own.high - own.low

    @functools.cached_property
    def all_rooms(self):
        rooms = [own.room(number, sign) for number, own in zip(self.numbers, self.known) for sign in (-1, 1)]
        there = [room for room in rooms if room is not None]
        return sum(there) if there else numpy.inf

    @functools.cache
    def inside(self, share):
        """The constraint that all numbers stay in the range, and as far from its ends as this share of the rounding asks."""
        margin = numpy.floor(self.margin(share)) if share else 0
        return LinearConstraint(self.matrix, margin - self.down, self.up - margin)

    def margin(self, share):
        """How far from the range's ends all numbers can be kept together, each at most by its share of the rounding."""
        rows, changes = self.matrix.shape
        wanted = share * abs(self.matrix).sum(axis=1) / 2
        one = identity(rows, format="csc")
        both = vstack([hstack([self.matrix, -one]), hstack([self.matrix, one])])
        endless = numpy.full(rows, numpy.inf)
        low, high = numpy.concatenate([-self.down, -endless]), numpy.concatenate([endless, self.up])
        free = numpy.full(changes, numpy.inf)
        bounds = numpy.concatenate([-free, numpy.zeros(rows)]), numpy.concatenate([free, wanted])
        cost = numpy.concatenate([numpy.zeros(changes), -1 / numpy.maximum(wanted, 1)])
        found = solved(cost, LinearConstraint(both, low, high), bounds)
        return numpy.zeros(rows) if found is None else found[changes:]

    def widened(self, row, place, shown):
        """What is shown of a row, with its low end (0) or its high one (1) as far out as the search moves it."""
        sign = (-1, 1)[place]
        shown = self.widened_by_one(row, sign, place, shown)
        for share in SHARES if shown[place] is not None and self.changes else ():
            found = self.farthest(row, sign, share)
            if found is not None and sign * (found - shown[place]) > 0:
                return shown._replace(**{Range._fields[place]: found})
        return shown

    def widened_by_one(self, row, sign, place, shown):
        """The same by one change alone, added or taken off as often as it fits."""
        for change in self.tried if shown[place] is not None else ():
            step = change.get(row, 0) * sign
            if step:
                often = times(change if step > 0 else {other: -number for other, number in change.items()}, self.numbers, self.known)
                found = None if often is None else self.numbers[row] + sign * often * abs(step)
                if found is None or sign * (found - shown[place]) > 0:
                    shown = shown._replace(**{Range._fields[place]: found})
                    if found is None:
                        break
        return shown

    def farthest(self, row, sign, share):
        """The farthest number that the solver finds for a row, upwards or downwards, or None if it isn't one."""
        cost = -sign * self.matrix[[row], :].toarray().ravel()
        counts = solved(cost, self.inside(share), (-numpy.inf, numpy.inf))
        return None if counts is None else self.checked(row, [round(float(count)) for count in counts])

    def checked(self, row, counts):
        """The number that a row gets if each change is added so often, or None if some number leaves the range then."""
        numbers = list(self.numbers)
        for count, change in zip(counts, self.changes):
            for place, step in change.items() if count else ():
                numbers[place] += count * step
        return numbers[row] if all(own.has(number) for own, number in zip(self.known, numbers)) else None


def solved(cost, constraint, bounds):
    """The numbers of least cost, or None if the solver finds none."""
    with warnings.catch_warnings():
        warnings.simplefilter("ignore")
        return milp(cost, constraints=constraint, bounds=bounds, options={"time_limit": PATIENCE}).x


def upright(change):
    """The change, or its negation, as a list by row that begins above 0: both say the same."""
    pairs = sorted(change.items())
    sign = 1 if pairs[0][1] > 0 else -1
    return tuple((row, sign * step) for row, step in pairs)

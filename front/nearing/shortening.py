"""Changes with large numbers are made shorter: each less as many times another one as leaves it the smallest numbers.

A whole combination of changes that alter no answer alters none, so the new ones don't either, and what the old ones come to together
the new ones do. Two directions of a report may have 2^40 at one row, and their difference 1.
"""

import time

LARGE = 2**10  # a change is made shorter if it has such a number
PATIENCE = 20  # seconds


def shortened(changes):
    """The changes, or shorter ones in their place, and how many of them are others now."""
    found, end = [dict(change) for change in changes], time.monotonic() + PATIENCE
    large = [place for place, change in enumerate(found) if greatest(change) >= LARGE]
    at_row = {}
    for place, change in enumerate(found):
        for row in change:
            at_row.setdefault(row, set()).add(place)
    sizes, is_new = [product(change, change) for change in found], True
    while is_new and time.monotonic() < end:
        is_new = False
        for place in sorted(large, key=lambda place: -sizes[place]):
            others = set().union(*(at_row[row] for row in found[place])) - {place}
            for other in sorted(others, key=lambda other: sizes[other]):
                is_new |= time.monotonic() < end and shorten(found, sizes, place, other)
            for row in found[place]:
                at_row.setdefault(row, set()).add(place)
    kept = [change for change in found if change]
    return kept, sum(one != other for one, other in zip(found, changes))


def shorten(found, sizes, place, other):
    """Takes a change off another one as often as shortens it most. Whether it does."""
    times = nearest(product(found[place], found[other]), sizes[other])
    if not times:
        return False
    for row, step in found[other].items():
        left = found[place].get(row, 0) - times * step
        if left:
            found[place][row] = left
        else:
            found[place].pop(row, None)
    sizes[place] = product(found[place], found[place])
    return True


def product(one, other):
    """What the numbers of both at each row come to, multiplied."""
    few, many = sorted((one, other), key=len)
    return sum(step * many.get(row, 0) for row, step in few.items())


def nearest(number, part):
    """The whole number nearest to a quotient, the smaller one in size of two."""
    if part == 0:
        return 0
    size = (2 * abs(number) + part - 1) // (2 * part)
    return size if number > 0 else -size


def greatest(change):
    return max(map(abs, change.values()))

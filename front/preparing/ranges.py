"""The range that people know of a secret column's numbers, and who stands so near its ends that others go along.

It is chosen as text in the file's own units, such as `0 to 2500.50` or `0 to none`, and kept in steps of the column's decimals.
"""

import fractions
import math
import statistics

from nearing.ranges import Range

from .cells import FORMS
from .faults import Fault, counted, first_numbers, listed, shown
from .guarding import is_inside

WORDS = "LOW to HIGH, as 0 to none, each a number or none; or none, if people know no range"
NUMBER = FORMS["1234.5"]
NEAR, FAR = 10, 20
# For a column of maxima or minima: the end of a range that its answers may be, its word, and what such an answer is.
EXTREMES = {"max": ("low", "lowest", "maximum"), "min": ("high", "highest", "minimum")}


def read_range(text):
    """The ends of the range, as exact numbers of the file. A Fault says how it is written."""
    low, mark, high = text.partition(" to ")
    ends = [None if word.strip() == "none" else NUMBER.read(word.strip()) for word in (low, high)]
    lacks = [end is None and word.strip() != "none" for end, word in zip(ends, (low, high))]
    if not mark or any(lacks) or None not in ends and ends[0] > ends[1]:
        raise Fault(f"{shown(text)} isn't a range: write {WORDS}")
    return ends


def range_fault(chosen):
    """Why the range of a column can't be followed, or None."""
    if chosen["range"] is None:
        return None
    try:
        ends = read_range(chosen["range"])
    except Fault as fault:
        return str(fault)
    steps = [end * 10 ** (chosen["decimals"] or 0) for end in ends if end is not None]
    if any(step.denominator != 1 for step in steps):
        return f"{shown(chosen['range'])} has more decimals than the column"
    return None


def range_of(chosen):
    """The range in steps of the column's decimals, or None if people know none."""
    if chosen["range"] is None:
        return None
    return Range(*(None if end is None else int(end * 10 ** (chosen["decimals"] or 0)) for end in read_range(chosen["range"])))


def with_ranges(rows, secret):
    """Each secret column of which people know a range, with its numbers and the range."""
    for column in secret:
        known = range_of(column.chosen)
        if known is not None:
            yield column, [row[column.name] for row in rows], known


def need_ranges(rows, secret, places):
    """A Fault for numbers that aren't in the range that people are said to know. `places` has each row's number for people."""
    faults = [
        f"{column.name}: row {place:,} has a number that isn't in the range {shown(column.chosen['range'])}"
        for column, numbers, known in with_ranges(rows, secret)
        for place, number in zip(places, numbers)
        if not known.has(number)
    ]
    if faults:
        raise Fault(listed(faults) + "\nNobody can know such a range. Rows are counted with the header as row 1")


def say_ranges(rows, secret, places, limits):
    """Points out what a range gives away by the limits of the schema, whoever stands near an end of one, and the far largest of a column."""
    known_ones = [found for found in with_ranges(rows, secret) if found[2] != Range(None, None)]
    say_known([column.name for column, _, _ in known_ones if column.kind != "sum" or "width" not in limits])
    for column, numbers, known in known_ones:
        if column.kind in EXTREMES:
            say_at_end(column, numbers, known, places)
        elif "width" in limits:
            say_kept_open(column.name, limits)
            say_held_down(column.name, numbers, known, places, limits)
        else:
            say_near_ends(column.name, numbers, known, places)
    for column in secret:
        if column.kind == "sum":
            say_largest(column.name, [row[column.name] for row in rows], places)


def say_known(names):
    """Points out what follows from a range that people know, wherever the numbers stand in it."""
    if names:
        print(
            f"CAREFUL: people know a range of {', '.join(names)}, and naming it here protects nothing: whoever knows it can work"
            ' out exact numbers by questions that are all answered (THREATS.md, "What a range gives away")'
        )


def say_near_ends(name, numbers, known, places):
    """Points out numbers that are nearer to an end of the range than a tenth of the median."""
    middle = statistics.median(map(abs, numbers))
    near = [place for place, number in zip(places, numbers) if least_room(number, known) * NEAR < middle]
    if near:
        print(
            f"CAREFUL: {counted(len(near), 'number')} of {name} {'is' if len(near) == 1 else 'are'} nearer to an end of the"
            f" range that people know than a tenth of the median. By sums over neighbours in a chain all others can be"
            f" known as nearly as these are: two of them are enough. Leave these rows out, or make one row of each and of"
            f" others, with their total. {rows_words(near)}"
        )


def say_kept_open(name, limits):
    """Points out what a width keeps open within a range that people know, and against whom it doesn't."""
    width = limits["width"]
    own = f", and against those who know their own number, over {2 * width**3:,}" if is_inside(limits) else ""
    print(
        f"CAREFUL: people know a range of {name}. Width {width:,} keeps each number open within it by at least the least distance of any"
        f" number from its ends, over {width**2:,}{own}. It does nothing against whoever knows a list that the numbers come from, or what goes"
        ' together with them (THREATS.md, "What a range gives away")'
    )


def say_held_down(name, numbers, known, places, limits):
    """Points out by how little a width keeps numbers open, if that is less than a tenth of the median, and who holds it down; or what helps if it is
    below a tenth whoever is left out."""
    parts, middle = limits["width"] ** 2, statistics.median(map(abs, numbers))
    rooms = sorted((least_room(number, known), place) for number, place in zip(numbers, places))
    near = [place for room, place in rooms if room * NEAR < parts * middle]
    if not near:
        return
    if not can_be_wide(numbers, known, parts):
        say_always_held_down(name, numbers, known, rooms, limits)
        return
    least = share_words(rooms[0][0], parts * middle)
    whose = f"those that stand in one change with theirs, at most {limits['reach']:,}" if "reach" in limits else "all others"
    print(
        f"CAREFUL: the least distance of any number of {name} from the range's ends, over {parts:,}, is"
        f" {least} % of the median, and below a tenth of it. {counted(len(near), 'row')}"
        f" {'holds' if len(near) == 1 else 'hold'} it down, for {whose} too. Leave out those that are nearest to an end, make one row"
        f" of each and of others, with their total, or choose a smaller width. {rows_words(near)}, the nearest first"
    )


def can_be_wide(numbers, known, parts):
    """Whether the least distance of some of the numbers, over so many parts, can be a tenth of their median. If it is, the distance of the number in
    their middle, which is no less, is a tenth of that number: so it is enough to look at each number by itself."""
    return any(0 < room and room * NEAR >= parts * abs(number) for number in numbers for room in [least_room(number, known)])


def say_always_held_down(name, numbers, known, rooms, limits):
    """Points out that a width keeps numbers open by less than a tenth of the median whoever is left out, and what a smaller one would do."""
    width = limits["width"]
    least, middle = rooms[0][0], statistics.median(map(abs, numbers))
    most = max(fractions.Fraction(least_room(number, known), width**2 * abs(number)) for number in numbers if number)
    first = min(width - 1, math.isqrt(int(least * NEAR / middle)))
    better = next((smaller for smaller in range(first, 0, -1) if least // smaller**2 * NEAR >= middle), None)
    print(
        f"CAREFUL: width {width:,} is sure to keep every number of {name} open within the range by {share_words(least, width**2 * middle)} % of the"
        f" median, and by no more than {math.ceil(most * 10000) / 100:g} % whoever is left out. "
        + (
            f"A width of {better:,} is sure of {share_words(least // better**2, middle)} %, and denies more: choose width={better}, or publish"
            if better
            else narrower_words(rooms, numbers, known, middle)
        )
        + " a report over groups alone, and open no door"
        + (". Against those who know their own number each share is to be divided by twice the width" if is_inside(limits) else "")
    )


def narrower_words(rooms, numbers, known, middle):
    """What helps if a smaller width alone doesn't."""
    least = f"Even a width of 1 is sure of {share_words(rooms[0][0], middle)} % alone"
    if not can_be_wide(numbers, known, 1):
        return f"{least}, whoever is left out: publish"
    near = [place for room, place in rooms if room * NEAR < middle]
    return (
        f"{least}: {counted(len(near), 'row')} {'holds' if len(near) == 1 else 'hold'} it down. {rows_words(near)}, the nearest first. Leave these out"
        " and choose a smaller width, or publish"
    )


def share_words(room, whole):
    """A share in per cent, rounded down to a tenth."""
    return f"{int(1000 * room / whole) / 10:g}"


def least_room(number, known):
    """How far a number is from the nearer end of a range that has one."""
    return min(room for room in (known.room(number, 1), known.room(number, -1)) if room is not None)


def say_at_end(column, numbers, known, places):
    """Points out whoever has the lowest number of the range in a column of maxima, or the highest in one of minima."""
    end, word, answer = EXTREMES[column.kind]
    at_end = [place for place, number in zip(places, numbers) if number == getattr(known, end)]
    if at_end:
        print(
            f"CAREFUL: {counted(len(at_end), 'number')} of {column.name} {'is' if len(at_end) == 1 else 'are'} the {word} that"
            f" people hold for possible. A {answer} that is this number says of everybody in its group that it is theirs."
            f" Leave these rows out. {rows_words(at_end)}"
        )


def say_largest(name, numbers, places):
    """Points out numbers that are more than twenty times the median."""
    middle = statistics.median(map(abs, numbers))
    large = [place for place, number in zip(places, numbers) if middle and abs(number) > FAR * middle]
    if large:
        print(
            f"CAREFUL: {counted(len(large), 'number')} of {name} {'is' if len(large) == 1 else 'are'} more than twenty times"
            f" the median: a sum over such a person and one other is nearly hers. Let no question be over fewer than five"
            f" people (the door's --least 5), or leave these rows out. {rows_words(large)}"
        )


def rows_words(places):
    """The first of some rows, as people count them."""
    return f"Counted with the header as row 1: {first_numbers(places)}"

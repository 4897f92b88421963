#!/usr/bin/python3
"""Says how far each number of a column is shown to be open within a range that people know. For the table's owner alone.

    near.py REPORT TABLE COLUMN LOW HIGH [--ends FILE] [--share 10] [--search]

REPORT is what auditor audit prints, TABLE the whole table.csv, COLUMN a secret column of it; LOW and HIGH are the least
and the greatest number that people hold for possible, as the table keeps them, or none. If people know more of each
row, such as its band, LOW and HIGH are names of columns with the end of each row: of TABLE, or of the CSV file that
--ends names, which has the same rows. A cell there is a whole number, or none. Each change of the report alters no
answer: it is added as often as all numbers stay in their ranges, so another table with the same answers has what is
shown. Of a column of maxima a number may be anything up to the one that the report prints, and the high end is one for
all rows. This is whole numbers alone. Printed are the rows, counted from 0, of which nothing shows another number that
differs by the share, in per cent.

Where rows stand for several people, as the column that is count in the schema.json beside TABLE says, the numbers of rows of
one person alone are guarded and shown; the others are named. LOW and HIGH are of each person then: the total of three
people lies between three times LOW and three times HIGH.

With --search those rows are looked at again. Changes with large numbers are made shorter first, each less as many times
another one as leaves the smallest numbers; each is tried alone, and then all of them together, by linear programs
(Debian's python3-scipy). What these find is added up again in whole numbers, so it needs no trust; what they don't find
may be there all the same.

The output follows from the secrets. So does what you leave out after reading it. Never publish either, and never put
this where an asker's question, or the door, can start it. The report itself may be published.

The status is 0 if every number is shown to be open by the share, 1 if one isn't, and 2 if arguments or files don't do.
"""

import argparse
import sys
import time

from nearing.columns import Sums, ends_of, read_column, single_rows
from nearing.ranges import Range, for_each, is_open, need_inside, shown_by
from preparing.faults import Fault, counted, first_numbers, status_of

EVERY = 5  # seconds between two lines on how far the search is


def arguments(words):
    """The arguments as they have to be; others end the program with status 2."""
    parser = argparse.ArgumentParser(
        prog="near.py",
        description=__doc__,
        formatter_class=argparse.RawDescriptionHelpFormatter,
        usage=argparse.SUPPRESS,
    )
    for name in ("report", "table", "column"):
        parser.add_argument(name)
    for name in ("low", "high"):
        parser.add_argument(name)
    parser.add_argument("--ends")
    parser.add_argument("--share", type=percent, default=10)
    parser.add_argument("--search", action="store_true")
    return parser.parse_args(words)


def ends(word, chosen, rows):
    """One end of each row's range: a whole number for all, None for all, or what a column of that name has."""
    try:
        return for_each(None if word == "none" else int(word), rows)
    except ValueError:
        pass
    found = ends_of(chosen.ends or chosen.table, word)
    if len(found) != rows:
        raise Fault(f"{chosen.ends} has {counted(len(found), 'row')}, and {chosen.table} has {rows:,}")
    return found


def percent(word):
    """A share in whole per cent, at least 1."""
    if not word.isascii() or not word.isdigit() or not 1 <= int(word) <= 1000:
        raise ValueError
    return int(word)


def look(chosen):
    """Prints what is shown, and says whether every number is open by the share."""
    column = read_column(chosen.report, chosen.table, chosen.column)
    known = list(map(Range, *(ends(word, chosen, len(column.numbers)) for word in (chosen.low, chosen.high))))
    if column.people and isinstance(column, Sums):
        known = [own.of_total(people) for own, people in zip(known, column.people)]
    need_inside(column.numbers, known)
    shown, single = shown_by(column, known), single_rows(column.numbers, column.people)
    near = near_rows(column, shown, chosen.share)
    print(
        f"{chosen.column}: {counted(len(single), 'number')}, of which {len(single) - len(near):,} are shown to be open by"
        f" {chosen.share} % or more by the report's lines alone"
    )
    say_others(sorted(set(range(len(shown))) - set(single)))
    if chosen.search and near and isinstance(column, Sums):
        search(column, known, shown, near, chosen.share)
        near = near_rows(column, shown, chosen.share)
        print(f"searched besides: {len(single) - len(near):,} are shown to be open by {chosen.share} % or more")
    for row in near:
        print(f"row {row}: {column.numbers[row]:,}, {shown_words(column.numbers[row], shown[row])}")
    return not near


def say_others(several):
    """Names the rows whose numbers aren't guarded, if there are any."""
    if several:
        print(f"{counted(len(several), 'row')} of several people, of which nothing is shown: {first_numbers(several)}")


def near_rows(column, shown, share):
    return [row for row in single_rows(column.numbers, column.people) if not is_open(column.numbers[row], shown[row], share)]


def search(column, known, shown, rows, share):
    """Widens what is shown of some rows, and says on standard error how far it is."""
    try:
        from nearing.searching import Search
    except ImportError:
        raise Fault("--search needs scipy: apt-get install --no-install-recommends python3-scipy") from None
    found, told = Search(column, known), time.monotonic()
    print(found.words())
    for count, row in enumerate(rows):
        if time.monotonic() - told > EVERY:
            told = time.monotonic()
            print(f"searched {count:,} of {counted(len(rows), 'row')}", file=sys.stderr)
        for place in (0, 1):
            if not is_open(column.numbers[row], shown[row], share):
                shown[row] = found.widened(row, place, shown[row])


def shown_words(number, shown):
    """What is shown of one number."""
    if shown == (number, number):
        return "and no other number is shown: take it for known"
    return f"shown only from {shown.low:,} to {shown.high:,}"


def main(words):
    return status_of("near", lambda: 0 if look(arguments(words)) else 1, 2)


if __name__ == "__main__":
    for stream in (sys.stdout, sys.stderr):
        stream.reconfigure(errors="backslashreplace")
    sys.exit(main(sys.argv[1:]))

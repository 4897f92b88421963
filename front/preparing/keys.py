"""Keys, by which people are known again when a table is renewed: a column of the export that stays outside of the table.

`keys.csv` beside `table.csv` has the key of each row, in their order. It is for the owner alone, and the program never reads it. What
everybody sees is the public number `current`: 1 in the rows of those who are there now, 0 in all others.
"""

import csv
import io
import unicodedata

from .choices import COUNT, PUBLIC, SECRET
from .faults import Fault, listed, shown

KEY = "key of the row"              # of a row in memory: no column can have this name
CURRENT = "current"
ONLY = "current = 1"                # the condition that the schema has every question satisfy


def publics(columns):
    """The names of the public columns but for that which says who is current."""
    return [column.name for column in columns if column.kind in PUBLIC and column.name != CURRENT]


def secrets(columns):
    """The names of the secret columns."""
    return [column.name for column in columns if column.kind in SECRET]


def need_one_table(choices):
    """A Fault if the choices have what a table with a key can't have."""
    if choices["split by"]:
        raise Fault('a table with a key isn\'t split: export each part into a file of its own, with "split by" none')
    if choices.get(COUNT) is not None:
        raise Fault("a table whose rows stand for several people has no key: choose count=none")
    if choices["wave"] is not None:
        raise Fault('a table with a key has no wave, since current says who is there: choose wave=none')


def keys_of_export(table, choices, title):
    """The key of each row of an export, by the row's number for people. One that is missing, or there twice, is a Fault."""
    place = place_of_key(table.titles, choices, title)
    found, first, faults = {}, {}, []
    for number, cells in table.rows:
        key = found[number] = cells[place].strip()
        if not key:
            faults.append(f"row {number:,} has no {shown(title)}")
        elif key in first:
            faults.append(f"row {number:,} has the {shown(title)} of row {first[key]:,}: {shown(key)}")
        else:
            first[key] = number
    if faults:
        raise Fault(listed(faults) + "\nRows are counted as in a spreadsheet: the header is row 1")
    return found


def place_of_key(titles, choices, title):
    """The place of the column that has the keys. The choices have to leave it out."""
    if titles.count(title) != 1:
        how = "no column is" if title not in titles else "two columns are"
        raise Fault(f"{how} called {shown(title)}, to know people again by: there are {', '.join(map(shown, titles[:40]))}")
    place = titles.index(title)
    if choices["columns"][place]["is"] != "leave out":
        raise Fault(f'{shown(title)} is the key, and a key stays outside of the table: choose it to be "leave out"')
    return place


def need_told_apart(keys):
    """A Fault if two keys differ in nothing but what people write in one way or another."""
    there, faults = {}, []
    for key in keys:
        other = there.setdefault(plain(key), key)
        if key and other != key:
            faults.append(f"{shown(other)} and {shown(key)}")
    if faults:
        raise Fault(
            "keys are compared letter by letter, and these differ in blanks, case, leading zeros or the form of a letter alone:\n"
            + listed(faults)
        )


def plain(key):
    """A key without blanks, case, leading zeros and forms of one letter."""
    return "".join(unicodedata.normalize("NFKC", key).casefold().split()).lstrip("0")


def read_keys(path, rows):
    """The key of each row of a table, in their order. An empty one was taken out, and is nobody's any more."""
    try:
        text = path.read_text(encoding="utf-8-sig")
        header, *records = [record for record in csv.reader(io.StringIO(text, newline="")) if record]
        keys = {int(place): key for place, key in records}
        if header != ["row", "key"] or [place for place, _ in records] != list(map(str, range(rows))):
            raise ValueError
    except (ValueError, csv.Error):
        raise Fault(
            f"{path} isn't a list of the keys of all {rows:,} rows in their order: row,key and a line for each row, from 0 on"
        ) from None
    return list(keys.values())

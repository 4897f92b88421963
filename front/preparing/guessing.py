"""A first guess at every open choice, the safest there is: one line to copy, for its reader to change. Nothing goes by it unless she runs it.

What may be secret is secret, what tells people apart is left out, and who asks may be in the table. A public column is guessed by its title
or by how few values it has.
"""

import pathlib
import re
import shlex
import sys

from . import choices as choosing
from . import guarding
from .cells import FORMS, without_unit
from .splitting import MOST_ROWS

PUBLIC_TITLES = {"age", "year", "years", "month", "grade", "level", "band", "class", "wave"}
NAMING_TITLES = {"id", "no", "nr", "number", "key", "code"}
FEW = 20  # different dates of a public column, each of three rows or more
MOST_SECRET = 8


def guessed(choices, tallies, rows):
    """The arguments of `choose` that fill in all open choices of a file with so many rows."""
    seen = list(zip(choices["columns"], tallies, strict=True))
    kinds = kinds_of([(column, tally) for column, tally in seen if column["is"] == choosing.OPEN])
    secret = [(column, tally) for column, tally in seen if kinds.get(column["name"]) == "sum"]
    words = [f"{name}={kind}" for name, kind in kinds.items()]
    if any(column["missing"] == choosing.OPEN for column in choices["columns"]):
        words.append("missing=drop the row")
    words += [f"{column['name']}.range=none" for column, tally in secret if has_negative(column, tally)]
    words += ["range=0 to none"] * bool(secret) + [f"{choosing.COUNT}=people"] * (rows > MOST_ROWS)
    return words + ["protect=none", f"{guarding.ASKERS}={guarding.INSIDE}"]


def kinds_of(seen):
    """What each open column is guessed to be, by name: no more secret ones than a table has, and a public one if there is a text."""
    kinds = {column["name"]: kind_of(column, tally) for column, tally in seen}
    for name in [name for name, kind in kinds.items() if kind == "sum"][MOST_SECRET:]:
        kinds[name] = "leave out"
    texts = [(len(tally.cells), column["name"]) for column, tally in seen if column["written as"] is None]
    if texts and not set(kinds.values()) & set(choosing.PUBLIC):
        kinds[min(texts)[1]] = "text"
    return kinds


def kind_of(column, tally):
    """What a column is guessed to be."""
    title = set(re.findall("[a-z]+", column["name"].lower()))
    if choosing.OPEN in (column["written as"], column["decimals"]):
        return "leave out"
    if column["written as"] is None:
        return "leave out" if len(tally.cells) * 2 > tally.rows else "text"
    if tally.is_each_its_own() and title & NAMING_TITLES:
        return "leave out"
    few = len(tally.cells) <= min(FEW, tally.rows // 3)
    if FORMS[column["written as"]].kind == "date":
        return "number" if few else "leave out"
    return "number" if title & PUBLIC_TITLES and not column["decimals"] else "sum"


def has_negative(column, tally):
    """Whether a number that was seen is below 0."""
    read = FORMS[column["written as"]].read
    return any((read(without_unit(cell, column["unit"] or "")) or 0) < 0 for cell in tally.cells)


def line_to_copy(out, words):
    """The command with these arguments, quoted as a shell wants it, by the name that this script was called by."""
    called = sys.argv[0] if pathlib.Path(sys.argv[0]).name in ("prepare.py", "auditor-prepare") else "prepare.py"
    return " ".join([shlex.quote(called), "choose", shlex.quote(str(out)), *map(quoted, words)])


def quoted(word):
    """An argument NAME=VALUE with its value in quotes, if there is a blank in it."""
    key, _, value = word.partition("=")
    return f'{key}="{value}"' if " " in value else shlex.quote(word)

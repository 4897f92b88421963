"""The choices of a person about a table: a JSON file with a ? wherever one is still open.

`look` writes it, `choose` or an editor fills it in, and `make` does what it says and nothing else.
"""

import json
import os
import re
import tempfile

from . import guarding, limits
from .cells import FORMS
from .coarsening import coarsening_faults
from .faults import Fault, listed, shown
from .names import LONGEST, is_name, plain
from .ranges import range_fault
from .reading import SEPARATORS

OPEN = "?"
FACTOR = re.compile("_x10+$")
START = "_from"  # of the name of a column of bands, which holds the number that each begins with
MOST_DECIMALS = 12
TOO_FINE = "A secret number is never rounded: round it in the file itself, and say so to those who ask, or leave the column out"
SECRET, PUBLIC, COUNT = ("sum", "max", "min"), ("text", "number"), "count"
SEEN = PUBLIC + (COUNT,)  # what stands in the public file
KINDS = PUBLIC + SECRET + ("leave out",)
MISSING = {"drop the row": KINDS, "keep": ("text",), "mark": ("number",)}
ROUNDINGS = ("no", "down", "nearest")
LAST = ("protect", guarding.ASKERS)  # what is asked after the columns
TABLE_KEYS = {
    "encoding": str,
    "separator": str,
    "untitled": str,
    "split by": list,
    "wave": int,
    "protect": list,
    "columns": list,
}
COLUMN_KEYS = {
    "from": str,
    "seen": str,
    "name": str,
    "is": str,
    "written as": str,
    "unit": str,
    "decimals": int,
    "rounded": str,
    "missing is": list,
    "missing": str,
    "range": str,
    "bands": str,
    "join": dict,
}
TEXT_KEYS = ("is", "missing is", "missing")
NUMBER_KEYS = TEXT_KEYS + ("written as", "unit", "decimals", "rounded")
SECRET_KEYS = NUMBER_KEYS + ("range",)


def table_keys():
    """The keys of a file of choices, each with the type of its values: one for each limit among them, the name of the column of counts, who asks,
    and of how few people what they have is guarded."""
    return TABLE_KEYS | dict.fromkeys(limits.LIMITS, int) | {COUNT: str, guarding.ASKERS: str, guarding.FEWEST: int}


def read(path):
    """The choices of a file, with keys and types as they have to be; what they say may still be open or wrong."""
    try:
        with open(path, encoding="utf-8-sig") as file:
            choices = json.load(file)
        # Half of a pair of surrogates, which JSON can spell, can't be written again.
        json.dumps(choices, ensure_ascii=False).encode()
    except (ValueError, RecursionError) as error:
        raise Fault(f"{path} isn't JSON: {error}") from None
    if isinstance(choices, dict):
        limits.fill_in(choices)
        guarding.fill_in(choices)
        choices.setdefault(COUNT, None)
    faults = key_faults(choices, table_keys(), "the file of choices")
    if not faults:
        fill_in_columns(choices["columns"])
        for place, column in enumerate(choices["columns"], 1):
            faults += key_faults(column, COLUMN_KEYS, f"column {place} of the choices")
    if faults:
        raise Fault(f"{path}: {listed(faults)}")
    return choices


def fill_in_columns(columns):
    """Leaves the range open in the columns of a file that was written when it wasn't asked for, and their values as they are."""
    for column in columns:
        if isinstance(column, dict):
            column.setdefault("range", OPEN)
            column.setdefault("bands", None)
            column.setdefault("join", None)


def key_faults(found, keys, what):
    """A sentence for each key that is missing, unknown or of another type than its own. Null and ? stand for any type."""
    if not isinstance(found, dict):
        return [f"{what} isn't an object"]
    faults = [f"{what} has no key {key!r}" for key in keys if key not in found]
    faults += [f"{what} has a key {shown(key)}, which means nothing" for key in found if key not in keys]
    for key, kind in keys.items():
        value = found.get(key)
        fits = isinstance(value, kind) and not isinstance(value, bool)
        if key in found and not fits and not (value in (None, OPEN) and key not in ("from", "name", "columns")):
            faults.append(f"{what}: {key!r} can't be {shown(json.dumps(value))}")
    return faults


def write(path, choices, fresh):
    """Writes the choices for the owner alone, in one step. A fresh file must not be there yet."""
    text = json.dumps(choices, indent=1, ensure_ascii=False) + "\n"
    handle, beside = tempfile.mkstemp(dir=os.path.dirname(os.path.abspath(path)), prefix=".choices-")
    try:
        with open(handle, "w", encoding="utf-8") as file:
            file.write(text)
        if fresh and os.path.lexists(path):
            raise Fault(f"{path} is already there, and nothing is overwritten")
        os.replace(beside, path)
    except BaseException:
        os.unlink(beside)
        raise


def open_choices(choices):
    """What is still to be chosen, in the arguments that `choose` takes: the columns before the totals that are over them, and who asks.

    A column that is left out asks no more.
    """
    found = [key for key in table_keys() if key not in LAST and choices[key] == OPEN]
    for column in choices["columns"]:
        keys = {OPEN: ("is",), "leave out": (), "text": TEXT_KEYS, "number": NUMBER_KEYS}.get(column["is"], SECRET_KEYS)
        found += [column["name"] + ("" if key == "is" else f".{key}") for key in keys if column[key] == OPEN]
    return found + [key for key in LAST if choices[key] == OPEN]


def need_decided(choices):
    """A Fault if anything is open or says what can't be done."""
    still_open = open_choices(choices)
    if still_open:
        raise Fault("still to be chosen:\n" + listed(still_open))
    faults = table_faults(choices) + limits.limit_faults(choices) + guarding.guard_faults(choices)
    for column in choices["columns"]:
        faults += column_faults(column)
    if faults:
        raise Fault(listed(faults))


def table_faults(choices):
    """A sentence for each choice on the whole table that can't be followed."""
    faults = []
    if not choices["encoding"]:
        faults.append('"encoding" has to be the name of one')
    if choices["separator"] not in SEPARATORS:
        faults.append(f"the separator can't be {shown(choices['separator'])}: it is one of {', '.join(SEPARATORS)}")
    if choices["untitled"] not in ("none", "first", "last"):
        faults.append(f"\"untitled\" can't be {shown(choices['untitled'])}: it is none, first or last")
    if choices["wave"] not in (None, 1):
        faults.append(f"\"wave\" can't be {choices['wave']}: it is 1, or null for no such column")
    if choices.get(COUNT) is not None and not is_name(choices[COUNT]):
        faults.append(f'"count" can\'t be {shown(choices[COUNT])}: it is the name of the column with how many people a row stands for, or null')
    public = [column["name"] for column in choices["columns"] if column["is"] in PUBLIC]
    faults += [
        f'"split by" can\'t be {shown(name)}: it has to be the name of a public column'
        for name in choices["split by"] or []
        if name not in public
    ]
    return faults


def name_in_steps(column):
    """The column's name as it says what its public numbers are: with the factor that they are multiplied by at its end, or with _from if they
    are where bands begin, and without if they are neither."""
    if column["decimals"] == OPEN and not column["bands"]:
        return column["name"]
    title = plain(column["from"], "c")
    name = column["name"] if FACTOR.search(title) else FACTOR.sub("", column["name"])
    name = name if title.endswith(START) else name.removesuffix(START)
    end = START if column["bands"] else f"_x{10 ** column['decimals']}" if column["decimals"] else ""
    if not end or name.endswith(end):
        return name
    return FACTOR.sub("", name)[: LONGEST - len(end)] + end


def column_faults(column):
    """A sentence for each choice on one column that can't be followed."""
    title = shown(column["from"])
    if column["is"] == "leave out":
        return []
    if column["is"] not in KINDS:
        return [f"{title} can't be {shown(column['is'])}: it is one of {', '.join(KINDS)}"]
    faults = [f"{title}: {fault}" for fault in coarsening_faults(column)]
    if faults:
        return faults
    if not is_name(column["name"]):
        faults.append(
            f"{title}: {shown(column['name'])} can't be a name: a letter, then letters, digits and _, at most 32, and"
            " not and, or, not, all, in"
        )
    if column["is"] != "text":
        faults += number_faults(column, title)
    allowed = MISSING.get(column["missing"], KINDS if column["missing"] is None else ())
    if column["is"] not in allowed:
        can = ", ".join(choice for choice, kinds in MISSING.items() if column["is"] in kinds)
        faults.append(
            f"{title}: \"missing\" can't be {shown(column['missing'])} for {column['is']}, which takes: {can}"
        )
    if not all(isinstance(cell, str) for cell in column["missing is"] or []):
        faults.append(f'{title}: "missing is" has to be a list of texts')
    return faults


def name_faults(column, title):
    """A sentence for a name that hides what its public numbers are. One that says a factor which they haven't is pointed out by `make`."""
    name = name_in_steps(column)
    if column["bands"]:
        return [
            f"{title}: numbers in bands are to say so in their name, since a condition compares them with the number that a band begins with: name it {name}"
        ]
    if not column["decimals"]:
        return []
    return [
        f"{title}: public numbers times {10 ** column['decimals']:,} are to say so in their name, since a condition"
        f' compares them as they are kept: name it {name}; or lower "decimals" and say how it is'
        ' "rounded"; or keep it as text'
    ]


def number_faults(column, title):
    """A sentence for each choice on how numbers are written that can't be followed."""
    form = FORMS.get(column["written as"])
    if column["written as"] is None and column["is"] in SECRET:
        return [
            f"{title} can't be {column['is']}: its cells aren't numbers in one form, and a text is public or left out. A yes or no that is to be asked"
            " for its number has to be 1 or 0 in the file; see what make warns of then"
        ]
    if column["written as"] is None:
        return [
            f"{title} can't be {column['is']}: its cells aren't numbers or dates in one of the forms {', '.join(FORMS)}"
        ]
    if form is None:
        return [f"{title}: \"written as\" can't be {shown(column['written as'])}: it is one of {', '.join(FORMS)}"]
    faults = []
    if form.kind == "date" and column["is"] in SECRET:
        faults.append(f"{title} can't be {column['is']}: a date can be public, as number or text, or left out")
    if column["is"] in SECRET and (column["decimals"] or 0) > MOST_DECIMALS:
        faults.append(f"{title} has numbers of {column['decimals']} decimals, and at most {MOST_DECIMALS} are kept. {TOO_FINE}")
    elif not column["bands"] and not 0 <= (column["decimals"] or 0) <= MOST_DECIMALS:
        faults.append(f"{title}: \"decimals\" can't be {column['decimals']}: it is 0 to {MOST_DECIMALS}")
    elif column["is"] == "number" and column["name"] != name_in_steps(column):
        faults += name_faults(column, title)
    elif column["is"] in SECRET and range_fault(column):
        faults.append(f"{title}: {range_fault(column)}")
    if re.search(r"[\d+.,'-]", column["unit"] or ""):
        faults.append(
            f"{title}: {shown(column['unit'])} can't be a unit: it has a digit, a sign or a mark of a number in it"
        )
    if column["rounded"] not in (None,) + ROUNDINGS:
        faults.append(f"{title}: \"rounded\" can't be {shown(column['rounded'])}: it is one of {', '.join(ROUNDINGS)}")
    elif column["rounded"] not in (None, "no") and column["is"] in SECRET:
        faults.append(
            f'{title}: a secret column isn\'t rounded: answers would be wrong without saying so. Raise "decimals"'
            " instead"
        )
    return faults

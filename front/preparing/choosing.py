"""`choose`: sets choices in their file from arguments, or asks for each open one at a terminal."""

import re

from . import choices as choosing
from . import guarding
from .choices import COLUMN_KEYS, KINDS, MISSING, OPEN, ROUNDINGS, table_keys
from .cells import FORMS
from .coarsening import JOIN_WORDS, read_bands, read_join
from .faults import Fault, shown
from .making import columns_to_write
from .protecting import need_totals
from .ranges import WORDS, read_range

LISTS = ("split by", "missing is")
LONGEST_NUMBER = 17  # digits of a choice: the greatest width has so many


def choose(path, words):
    """Follows each argument in turn, writes the file once, and says what is still open."""
    choices = choosing.read(path)
    follow(choices, words)
    if not words:
        ask_each(choices)
    name_by_steps(choices)
    choosing.write(path, choices, fresh=False)
    still_open = choosing.open_choices(choices)
    print("still open: " + ", ".join(still_open) if still_open else "nothing is open any more: make can be run")


def follow(choices, words):
    """Follows each argument in turn."""
    for word in words:
        key, mark, value = word.partition("=")
        if not mark:
            raise Fault(f"{shown(word)} sets nothing: write KEY=VALUE, NAME=KIND or NAME.KEY=VALUE")
        if not word.isascii() and any("\ud800" <= letter <= "\udfff" for letter in word):
            raise Fault(f"{shown(word)} has bytes in it that aren't UTF-8")
        set_choice(choices, key.strip(), value.strip())


def name_by_steps(choices):
    """Names a public number for the factor that it is multiplied by, or as where bands begin, so that whoever writes a condition sees it, and for
    neither if it isn't any more."""
    for column in choices["columns"]:
        name, before = choosing.name_in_steps(column), column["name"]
        if column["is"] == "number" and before != name:
            how = f"kept times {10 ** column['decimals']:,}" if column["decimals"] else "kept as they are"
            how = f"kept {read_bands(column['bands']).words()}, each as the number that its band begins with" if column["bands"] else how
            print(f"{before} is named {name}: its numbers are {how}, and conditions compare them so")
            column["name"] = name
            choices["split by"] = [name if one == before else one for one in choices["split by"] or []] or None


def set_choice(choices, key, value):
    """Sets one choice; `others`, `missing` and `range` are those of every column in which they are still open.

    A column may be called as a choice is: NAME=KIND is the column then.
    """
    if value in KINDS and any(column["name"] == key for column in choices["columns"]):
        set_column(column_named(choices, key), "is", value)
    elif key == "others":
        for column in choices["columns"]:
            if column["is"] == OPEN:
                set_column(column, "is", value)
    elif key == "missing":
        for column in choices["columns"]:
            if column["missing"] == OPEN:
                set_column(column, "missing", value)
    elif key == "range":
        for column in choices["columns"]:
            if column["range"] == OPEN:
                set_column(column, "range", value)
    elif key == "protect":
        add_protected(choices, value)
    elif key == guarding.ASKERS and value not in guarding.WHO:
        raise Fault(f"{key} can't be {shown(value)}: it is one of {', '.join(guarding.WHO)}")
    elif key in table_keys() and key != "columns":
        choices[key] = from_words(key, value, table_keys()[key])
    else:
        name, _, part = key.partition(".")
        set_column(column_named(choices, name), part or "is", value)


def column_named(choices, name):
    """The column of that name, or else the one of that title."""
    found = [column for column in choices["columns"] if name == column["name"]] or [
        column for column in choices["columns"] if name == column["from"]
    ]
    if len(found) != 1:
        names = ", ".join(column["name"] for column in choices["columns"][:40])
        raise Fault(f"{'no column is' if not found else 'two columns are'} called {shown(name)}; there are {names}")
    return found[0]


def set_column(column, key, value):
    """Sets one choice of a column, if it is one of those that the key takes."""
    allowed = {"is": KINDS, "missing": MISSING, "written as": FORMS, "rounded": ROUNDINGS}
    if key not in COLUMN_KEYS or key in ("from", "seen"):
        raise Fault(
            f"{shown(key)} isn't a choice of a column: there are is, name, written as, unit, decimals, rounded, missing"
            " is, missing, range, bands, join"
        )
    if key in allowed and value not in allowed[key]:
        raise Fault(
            f"{column['name']}{'' if key == 'is' else '.' + key} can't be {shown(value)}: it is one of"
            f" {', '.join(allowed[key])}"
        )
    if key == "join" and value not in ("none", "null"):
        return add_join(column, value)
    chosen = from_words(key, value, COLUMN_KEYS[key])
    if key == "range" and chosen is not None:
        read_range(chosen)
    if key == "bands" and chosen is not None:
        read_bands(chosen)
    column[key] = chosen
    if key == "written as" and column["decimals"] == OPEN:
        column["decimals"] = decimals_of(column)


def add_join(column, value):
    """Some more values of a column that are to be one."""
    name, values = read_join(value)
    join = column["join"] or {}
    again = next((one for one in values if any(one in others for others in join.values())), None)
    if again is not None:
        raise Fault(f"{column['name']}.join: {shown(again)} is joined already. {column['name']}.join=none begins anew; write {JOIN_WORDS}")
    column["join"] = {**join, name: join.get(name, []) + values}


def decimals_of(column):
    """Numbers without a decimal mark have no decimals; how many others are kept with stays open."""
    return OPEN if getattr(FORMS[column["written as"]], "decimal", "") else 0


def from_words(key, value, kind):
    """The value that stands in the file: null for none, a number, a list at commas, or the text."""
    if key not in ("name", "missing is") and value in ("none", "null") and key != "untitled":
        return None
    if kind is int:
        if not value.isascii() or not value.isdigit() or len(value) > LONGEST_NUMBER:
            raise Fault(f"{key} can't be {shown(value)}: it is a number or none")
        return int(value)
    if key in LISTS:
        return [part.strip() for part in value.split(",")]
    return value


def add_protected(choices, value):
    """One more total that must stay open, as COLUMN where CONDITION; none sets the list to nothing.

    It is tried at once if it is known by then what each column is.
    """
    if value == "none":
        choices["protect"] = []
        return
    found = re.fullmatch(r"(.+?)\s+where\s+(.+)", value, re.IGNORECASE | re.DOTALL)
    if not found:
        raise Fault(f'{shown(value)} isn\'t a total: write protect="COLUMN where CONDITION", or protect=none')
    group = {"column": column_named(choices, found[1])["name"], "where": found[2]}
    groups = choices["protect"] if isinstance(choices["protect"], list) else []
    if group in groups:
        raise Fault(f"{shown(value)} is protected already")
    if not any(column["is"] == OPEN for column in choices["columns"]):
        need_totals(groups + [group], columns_to_write(choices))
    choices["protect"] = groups + [group]


def ask_each(choices):
    """Asks for each open choice until it is one that can be followed. The input's end leaves the others open."""
    skipped = set()
    while True:
        still_open = [key for key in choosing.open_choices(choices) if key not in skipped]
        if not still_open:
            return
        key = still_open[0]
        try:
            value = input(f"{key}{question_about(choices, key)}? ").strip()
        except EOFError:
            print()
            return
        if not value:
            skipped.add(key)
            continue
        set_or_say(choices, key, value)
        if key == "protect" and choices["protect"] not in (OPEN, []):
            ask_for_more_totals(choices)


def set_or_say(choices, key, value):
    """Sets a choice, or prints why it can't be."""
    try:
        set_choice(choices, key, value)
    except Fault as fault:
        print(fault)


def ask_for_more_totals(choices):
    """Asks for totals that must stay open until an empty line, or the input's end."""
    while True:
        try:
            value = input("another total (COLUMN where CONDITION, or nothing for no more)? ").strip()
        except EOFError:
            print()
            return
        if not value:
            return
        set_or_say(choices, "protect", value)


def question_about(choices, key):
    """What was seen of the column, and what the answer may be."""
    name, _, part = key.partition(".")
    if key == guarding.ASKERS:
        return guarding.question()
    if part == "range":
        return f" (the range that people know these numbers to be in: {WORDS})"
    column = next((column for column in choices["columns"] if column["name"] == name), None)
    if column is None:
        return " (a total that must stay open, whatever is asked: COLUMN where CONDITION, or none)" if key == "protect" else ""
    answers = {
        "": KINDS,
        "missing": [choice for choice, kinds in MISSING.items() if column["is"] in kinds],
        "written as": FORMS,
    }.get(part, ())
    return f" ({column['seen']}) [{', '.join(answers)}]" if answers else f" ({column['seen']})"

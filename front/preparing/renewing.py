"""`renew`: the table of a folder as it is by a new export. Each number stays in its row, and what is public is written anew.

People are known again by their keys. Who is there with the same numbers is in her row, with her public cells as they are now. Who isn't
there is no longer current. Who has another number gets another row, and her earlier row is no longer current; a number that an earlier
row of hers has goes back to that row, so no number of anybody stands in two rows.
"""

import dataclasses
import fractions
import json
import pathlib

from . import choices as choosing
from .adding import rows_before
from .choices import SECRET
from .faults import Fault, counted, shown
from .guards import say_readers, secrets_apart
from .keys import CURRENT, KEY, need_told_apart, publics, read_keys, secrets
from .largest import MOST_ROWS
from .making import Changes, Column, columns_with_current, from_file, need_columns, only, people_of, read_as_chosen
from .ordering import by_public_cells
from .protecting import need_totals
from .ranges import need_ranges
from .reading import Table
from .renewal_words import change_of, say_renewal
from .writing import need_free, notes, put_into_place, said_of_program, schema_of, try_program, write_folder

LARGE_PART = 5                      # one in so many people, past which a change needs a word
LATER = "numbers=later"
MEANT = ("many=left", "many=changed", "unit=same", LATER)
FEW_CHANGED = 3                     # people whose numbers may go by one factor of ten by chance
FILES = ("schema.json", "table.csv", "keys.csv", "public/notes.json")
TENS = {fractions.Fraction(10) ** power for power in range(-12, 13) if power}


@dataclasses.dataclass(frozen=True)
class Folder:
    """What a folder has: its schema, the notes on its columns, and its rows with their keys."""

    path: pathlib.Path
    schema: dict
    notes: dict
    rows: list

    def kinds(self):
        return {column["name"]: column["is"] for column in self.schema["columns"]}


@dataclasses.dataclass(frozen=True)
class Export:
    """A file by the choices: its table, what was changed to read it, the row of each person by key, and her row's number for people."""

    choices: dict
    table: Table
    changes: Changes
    people: dict
    places: list


@dataclasses.dataclass
class Renewal:
    """The rows as they are to be, and what became of whom, by key. `changed` has each earlier row and what the export has."""

    rows: list
    came: list = dataclasses.field(default_factory=list)
    left: list = dataclasses.field(default_factory=list)
    back: list = dataclasses.field(default_factory=list)
    changed: dict = dataclasses.field(default_factory=dict)
    others: list = dataclasses.field(default_factory=list)
    moved: dict = dataclasses.field(default_factory=dict)


def renew(path, choices_path, old, new, title, meant, program):
    """Writes the folder `new`: the table of the folder `old` as it is by the export `path`, or raises a Fault and leaves nothing behind."""
    need_meanings(meant)
    need_free(pathlib.Path(new))
    choices = choosing.read(choices_path)
    choosing.need_decided(choices)
    columns, totals = columns_with_current(choices), choices["protect"] or []
    need_columns(columns)
    need_totals(totals, columns)
    folder = read_folder(pathlib.Path(old), columns)
    export = read_export(path, choices, columns, title)
    need_told_apart([*(row[KEY] for row in folder.rows), *export.people])
    renewal = renewed(folder.rows, export.people, columns, LATER in meant)
    need_meant(renewal, folder.rows, columns, meant)
    need_as_due(folder.rows, renewal, export.people, columns, LATER in meant)
    with put_into_place(new) as beside:
        write_folder(beside, columns, schema_of(columns, totals, other_keys(folder.schema)), renewal.rows)
        try_program(beside, program)
    said_of_program(program)
    say_renewal(renewal, folder, export, columns, LATER in meant)
    say_readers(path)
    say_next(old, new, len(renewal.rows) > len(folder.rows))


def need_meanings(words):
    """A Fault for an argument that means nothing."""
    for word in words:
        if word not in MEANT:
            raise Fault(f"{shown(word)} isn't an option of renew: there are {', '.join(MEANT)}")


def read_export(path, choices, columns, title):
    """The people of a file. What `make` refuses in it is a Fault here too: a secret column that follows from another one, a number out of
    the range that people know."""
    table, changes = read_as_chosen(path, choices), Changes()
    people = people_of(table, choices, columns, title, changes)
    rows, places = list(people.values()), [number for number, _ in table.rows if number not in changes.dropped]
    secrets_apart(rows, from_file(columns), {column.name: [row[column.name] for row in rows] for column in columns if column.kind == "text"})
    need_ranges(rows, [column for column in columns if column.kind in SECRET], places)
    return Export(choices, table, changes, people, places)


def other_keys(schema):
    """What else the schema says, which stays as it is; and that questions are kept to those who are there."""
    others = {key: value for key, value in schema.items() if key not in ("columns", "protect")}
    return others if "only" in others else {**others, **only()}


# What is there.


def read_folder(path, columns):
    """What a folder has. Its secret columns have to be those of the choices, with as many decimals and the same unit."""
    for name in FILES:
        if not (path / name).is_file():
            raise Fault(f"{path} has no {name}: it isn't a folder that make wrote with key=TITLE, or renew")
    try:
        schema = json.loads((path / "schema.json").read_text(encoding="utf-8"))
        there = [Column(column["name"], column["is"]) for column in schema["columns"]]
        told = json.loads((path / "public" / "notes.json").read_text(encoding="utf-8"))["columns"]
        steps = {name: (note.get("decimals") or 0, note.get("unit")) for name, note in told.items()}
    except (ValueError, LookupError, TypeError, AttributeError):
        raise Fault(f"{path}: schema.json or public/notes.json isn't what make or renew wrote") from None
    need_same_secrets(path, there, columns)
    need_same_steps(steps, columns)
    rows = rows_before(path / "table.csv", there)
    rows = [{**row, KEY: key} for row, key in zip(rows, read_keys(path / "keys.csv", len(rows)), strict=True)]
    need_one_row_each(path, rows)
    return Folder(path, schema, told, rows)


def need_same_secrets(path, there, columns):
    """A Fault if the folder has no column that says who is current, or other secret columns than the choices."""
    if not any(column.name == CURRENT and column.kind == "number" for column in there):
        raise Fault(f"{path} has no public number {CURRENT}: make it anew with key=TITLE")
    was, now = ([(column.name, column.kind) for column in some if column.kind in SECRET] for some in (there, columns))
    if was != now:
        names = ", ".join(f"{name} {kind}" for name, kind in was)
        raise Fault(
            f"the secret columns have to be those that the journal is for, in their order: {names}. A new one gets a folder and a"
            " journal of its own"
        )


def need_same_steps(steps, columns):
    """A Fault if the numbers of a secret column would be kept in other steps, or in another unit."""
    now = notes(columns)
    for name in (column.name for column in columns if column.kind in SECRET):
        was, is_now = steps.get(name, (0, None)), (now[name].get("decimals") or 0, now[name].get("unit"))
        if was != is_now:
            raise Fault(f"{name} is kept with {step_words(*was)}, and the choices say {step_words(*is_now)}: every number would be another")


def step_words(decimals, unit):
    return f"{counted(decimals, 'decimal')} and {f'the unit {unit}' if unit else 'no unit'}"


def need_one_row_each(path, rows):
    """A Fault if the rows that are current aren't one of each person."""
    seen = {}
    for number, row in enumerate(rows):
        if row[CURRENT] not in (0, 1):
            raise Fault(f"{path}: {CURRENT} is {row[CURRENT]} in row {number:,}, counted from 0, and has to be 0 or 1")
        if row[CURRENT] and not row[KEY]:
            raise Fault(f"{path}: row {number:,}, counted from 0, is current and has no key. A key can be taken out once its row isn't current")
        if row[CURRENT] and row[KEY] in seen:
            raise Fault(f"{path}: rows {seen[row[KEY]]:,} and {number:,}, counted from 0, are both current, and both of {shown(row[KEY])}")
        if row[CURRENT]:
            seen[row[KEY]] = number


# What becomes of each row.


def renewed(before, people, columns, later):
    """The rows as they are to be: in their places, and new ones at the end in the order of their public cells. With `later` a person
    whose number is another keeps the earlier one."""
    renewal, places, added = Renewal([no_longer(row, columns) for row in before]), {}, []
    for place, row in enumerate(before):
        places.setdefault(row[KEY], []).append(place)
    renewal.left = [row[KEY] for row in before if row[CURRENT] and row[KEY] not in people]
    for key, now in people.items():
        mine = places.get(key, [])
        standing = next((place for place in mine if before[place][CURRENT]), None)
        note(renewal, before, standing, now, columns, bool(mine))
        if later and key in renewal.changed:
            now = {**now, **{name: before[standing][name] for name in secrets(columns)}}
        place = place_of_numbers(before, mine, standing, now, columns)
        if place is None:
            added.append(now)
        else:
            renewal.rows[place] = now
    renewal.rows += by_public_cells(added, publics(columns))
    return renewal


def no_longer(row, columns):
    """A row of somebody who isn't there: as it was, with nothing in a public column that it hasn't."""
    cells = {column.name: cell_before(row, column) for column in columns}
    return {**cells, KEY: row[KEY], CURRENT: 0}


def cell_before(row, column):
    """What a row had in a column, or an empty text or 0 if it had nothing of this kind there."""
    empty = "" if column.kind == "text" else 0
    cell = row.get(column.name, empty)
    return cell if isinstance(cell, type(empty)) else empty


def place_of_numbers(before, mine, standing, now, columns):
    """The place of the row of a person that has her numbers, or None if it takes another row. A number that stands in one of her rows
    must not get a second one."""
    names = secrets(columns)
    same = [place for place in mine if all(before[place][name] == now[name] for name in names)]
    if same:
        return standing if standing in same else same[-1]
    for place in mine:
        alike = [name for name in names if before[place][name] == now[name]]
        if alike:
            raise Fault(
                f"{shown(now[KEY])} has another number, and {', '.join(alike)} as in row {place:,}, counted from 0: that would stand in"
                " two rows, and give other people's numbers away. Keep each secret column in a folder of its own"
            )
    return None


def note(renewal, before, standing, now, columns, known):
    """Notes what became of a person: she is new, or back, or has another number or other public cells."""
    key = now[KEY]
    if standing is None:
        (renewal.back if known else renewal.came).append(key)
        return
    was = before[standing]
    if any(was[name] != now[name] for name in secrets(columns)):
        renewal.changed[key] = (was, now)
    other = [name for name in publics(columns) if name in was and was[name] != now[name]]
    for name in other:
        renewal.moved[name] = renewal.moved.get(name, 0) + 1
    if key in renewal.changed and other and len(other) == len(publics(columns)):
        renewal.others.append(key)


# What can't be meant, and a second way.


def need_meant(renewal, before, columns, meant):
    """A Fault if there are too many rows, or if so much changed that it is more likely another file."""
    gone, standing = sum(not row[CURRENT] for row in renewal.rows), sum(row[CURRENT] for row in before)
    if len(renewal.rows) > MOST_ROWS:
        raise Fault(
            f"there would be {len(renewal.rows):,} rows, {gone:,} of them no longer current, and a table has at most {MOST_ROWS:,}. No row"
            " can be given up: what was answered of it counts. Another table, with a journal of its own, forgets that"
            ' (KEEPING.md, "How the promise can be lost")'
        )
    for word, who, what in (("left", renewal.left, "left"), ("changed", renewal.changed, "have other numbers")):
        if len(who) * LARGE_PART > standing and f"many={word}" not in meant:
            raise Fault(f"{len(who):,} of {standing:,} people {what}: is it the right file? If that is meant, add many={word}")
    for name in secrets(columns):
        factor, rest = change_of(renewal, name) or (None, None)
        if len(renewal.changed) >= FEW_CHANGED and factor in TENS and not rest and "unit=same" not in meant:
            raise Fault(f"each {name} that changed is {factor} times what it was: in another unit? If it is the same one, add unit=same")


def need_as_due(before, renewal, people, columns, later):
    """The second way: each number that was there is in its row, those who are current are the people of the export as it has them, or
    with their earlier numbers, and no new row has a number that an earlier row of the same person has."""
    kept = [all(was[name] == row[name] for name in (*secrets(columns), KEY)) for was, row in zip(before, renewal.rows)]
    waits = {key: {name: was[name] for name in secrets(columns)} for key, (was, _) in renewal.changed.items()} if later else {}
    now = [row for row in renewal.rows if row[CURRENT]]
    due = {key: {**row, **waits.get(key, {})} for key, row in people.items()}
    had = {(row[KEY], name, row[name]) for row in before for name in secrets(columns)}
    twice = [row[KEY] for row in renewal.rows[len(before) :] for name in secrets(columns) if (row[KEY], name, row[name]) in had]
    if len(kept) < len(before) or not all(kept) or len(now) != len(due) or {row[KEY]: row for row in now} != due or twice:
        raise Fault("renew would write another table than is due, so nothing is written: this is a fault of prepare.py")


def say_next(old, new, grew):
    """What is to be done with the new folder."""
    grow = f" auditor grow in {old}, once;" if grew else ""
    print(
        f"written: {shown(str(new), 200)[1:-1]}. Next: end every run over {old}; put schema.json, table.csv, keys.csv and all of public in"
        f" the place of those that {old} has;{grow} then serve. A front door begins another transcript once it is told, by a file renewed"
        ' (FRONT.md, "A table that is renewed")'
    )

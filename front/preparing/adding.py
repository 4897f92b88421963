"""`add`: the table of a folder with rows at its end, as `auditor grow` wants it. What was there stays byte for byte."""

import csv
import io
import json
import pathlib
import shutil

from .choices import PUBLIC, SECRET, SEEN
from .faults import Fault, counted, shown
from .guards import say_what_is_known, secrets_apart
from .largest import MOST_ROWS
from .making import Changes, chosen_columns, convert_all, read_as_chosen, say_changes
from .ordering import by_public_cells, say_order
from .protecting import need_totals, say_totals
from .ranges import need_ranges, say_ranges
from .splitting import Part
from .writing import lines_for, need_few_bytes, put_into_place, said_of_program, try_program


def add(path, choices_path, old, new, program):
    """Writes the folder `new`, with the tables of the folder `old` and the rows of a file at their end."""
    choices, columns = chosen_columns(choices_path)
    old = pathlib.Path(old)
    schema = need_schema(old, columns)
    before = rows_before(old / "table.csv", columns)
    table, changes = read_as_chosen(path, choices), Changes()
    public = [column.name for column in columns if column.kind in PUBLIC]
    added = by_public_cells(convert_all(table, columns, changes), public)
    wave_words = number_waves(before, added)
    rows = before + added
    if len(rows) > MOST_ROWS:
        raise Fault(f"there would be {len(rows):,} rows, and a table has at most {MOST_ROWS:,}")
    texts = {column.name: [row[column.name] for row in rows] for column in columns if column.kind == "text"}
    secrets_apart(rows, columns, texts)
    places = range(2, len(rows) + 2)
    secret = [column for column in columns if column.kind in SECRET]
    need_ranges(rows, secret, places)
    need_totals(schema.get("protect", []), columns)
    with put_into_place(new) as beside:
        write_longer(old, beside, columns, added)
        try_program(beside, program)
    said_of_program(program)
    say_changes({**choices, "wave": None}, columns, table, changes)
    say_order()
    say_totals(schema.get("protect", []), columns, [Part(rows)])
    say_what_is_known(rows, public, [column.name for column in secret])
    say_ranges(rows, secret, places, schema)
    say_next(old, new, columns, before, added, wave_words)


def need_schema(folder, columns):
    """The schema of the folder, if its columns are those of the choices; another one is a Fault."""
    for name in ("schema.json", "table.csv", "public/schema.json", "public/table.csv"):
        if not (folder / name).is_file():
            raise Fault(f"{folder} has no {name}: it isn't a folder that make wrote")
    try:
        schema = json.loads((folder / "schema.json").read_text(encoding="utf-8"))
        there = [(column["name"], column["is"]) for column in schema["columns"]]
    except (ValueError, LookupError, TypeError):
        raise Fault(f"{folder / 'schema.json'} isn't a schema") from None
    if there != [(column.name, column.kind) for column in columns]:
        names = ", ".join(f"{name} {kind}" for name, kind in there)
        raise Fault(f"the choices give other columns than {folder} has: there are {names[:1000]}")
    return schema


def rows_before(path, columns):
    """The rows that are there, as a value for each name."""
    try:
        text = path.read_text(encoding="utf-8-sig")
        header, *records = [record for record in csv.reader(io.StringIO(text, newline="")) if record]
        if header != [column.name for column in columns]:
            raise ValueError
        return [
            {column.name: cell if column.kind == "text" else int(cell) for column, cell in zip(columns, record, strict=True)}
            for record in records
        ]
    except (ValueError, csv.Error):
        raise Fault(f"{path} isn't a table of its schema") from None


def number_waves(before, added):
    """Gives the rows that are added the next number of their column wave, if there is one, and says so in words."""
    if "wave" not in added[0]:
        return ""
    wave = max(row["wave"] for row in before) + 1
    for row in added:
        row["wave"] = wave
    return f", of wave {wave}"


def write_longer(old, folder, columns, added):
    """The files of the folder `old` with lines at the end of both tables. A table stays its owner's alone."""
    (folder / "public").mkdir(parents=True)
    public = [column for column in columns if column.kind in SEEN]
    for where, kept in ((".", columns), ("public", public)):
        shutil.copyfile(old / where / "schema.json", folder / where / "schema.json")
        text = (old / where / "table.csv").read_bytes()
        ended = text if text.endswith((b"\n", b"\r")) else text + b"\r\n"
        table = folder / where / "table.csv"
        table.touch(0o600 if where == "." else 0o666)
        table.write_bytes(ended + lines_for(columns)([[row[column.name] for column in kept] for row in added]).encode())
        need_few_bytes(table)
    if (old / "public" / "notes.json").is_file():
        shutil.copyfile(old / "public" / "notes.json", folder / "public" / "notes.json")


def say_next(old, new, columns, before, added, wave_words):
    """What is to be done with the longer tables, and what can't be done without a number that tells the rows apart."""
    print(f"added: {counted(len(added), 'row')} after {counted(len(before), 'row')}{wave_words}")
    numbers = [column.name for column in columns if column.kind == "number"]
    if not any(max(row[name] for row in before) < min(row[name] for row in added) for name in numbers):
        print(
            "CAREFUL: no public number is greater in each new row than in all earlier rows. A transcript can't go on over"
            " this table: wave=1, chosen when a table is made, gives it such a number"
        )
    print(
        f"written: {shown(str(new), 200)[1:-1]}. Next: end every run over {old}; put both table.csv in the place of those that"
        f" {old} has; then auditor grow there, once"
    )

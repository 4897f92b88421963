"""Writes the folders of a table beside their place first and then under their name, so that none is there in half."""

import contextlib
import csv
import io
import json
import os
import pathlib
import re
import shutil
import subprocess
import tempfile

from .choices import COUNT, SEEN
from .coarsening import read_bands
from .faults import Fault
from .keys import KEY
from .guarding import ASKERS, FEWEST, OUTSIDE
from .limits import LIMITS
from .protecting import total_words

MOST_BYTES = 16_777_216
MOST_SCHEMA_BYTES = 65_536


def write_folders(folder, columns, schema, tables, program):
    """Writes a folder, or one for each part in it, has the program read them, and puts them into place."""
    with put_into_place(folder) as beside:
        for part in tables:
            write_folder(beside / part.name, columns, schema, part.rows)
            try_program(beside / part.name, program)
    said_of_program(program)


@contextlib.contextmanager
def put_into_place(folder):
    """A folder beside the one that is wanted, which gets its name once it is whole. Whatever goes wrong leaves nothing."""
    folder = pathlib.Path(folder)
    need_free(folder)
    beside = pathlib.Path(tempfile.mkdtemp(prefix=f".{folder.name[:100]}-", dir=folder.parent))
    try:
        beside.chmod(0o777 & ~current_umask())
        yield beside
        need_free(folder)
        os.rename(beside, folder)
    except BaseException:
        shutil.rmtree(beside, ignore_errors=True)
        raise


def said_of_program(program):
    """Says if the files weren't tried with the program."""
    if program is None:
        print("not tried with the program: there is no auditor in the path, nor does AUDITOR name one")


def need_free(folder):
    """A Fault if something is there already, or if there is nowhere to put it."""
    if os.path.lexists(folder):
        raise Fault(f"{folder} is already there, and nothing is overwritten")
    if not folder.parent.is_dir():
        raise Fault(f"there is no folder {folder.parent} to put {folder.name} into")


def current_umask():
    """The mask of modes, which can only be read by setting it."""
    mask = os.umask(0o077)
    os.umask(mask)
    return mask


def schema_of(columns, protect, others):
    """A schema with these columns and protected totals, and with other keys."""
    schema = {"columns": [{"name": column.name, "is": column.kind} for column in columns]}
    return {**schema, **({"protect": protect} if protect else {}), **others}


def write_folder(folder, columns, schema, rows):
    """schema.json, and table.csv and the rows' keys, if they have some, for their owner alone; in public/ the schema, the public
    columns and notes."""
    public = folder / "public"
    public.mkdir(parents=True)
    text = json.dumps(schema, indent=1, ensure_ascii=False) + "\n"
    if len(text.encode()) > MOST_SCHEMA_BYTES:
        raise Fault(
            f"the schema has {len(text.encode()):,} bytes, and at most {MOST_SCHEMA_BYTES:,} are read: protect fewer"
            " totals, or write their conditions in fewer letters"
        )
    for where in (folder, public):
        (where / "schema.json").write_text(text, encoding="utf-8")
    write_table(folder / "table.csv", columns, rows, 0o600)
    if KEY in rows[0]:
        write_keys(folder / "keys.csv", rows)
    write_table(public / "table.csv", [column for column in columns if column.kind in SEEN], rows, 0o666)
    (public / "notes.json").write_text(
        json.dumps({"columns": notes(columns)}, indent=1, ensure_ascii=False) + "\n", encoding="utf-8"
    )


def write_table(path, columns, rows, mode):
    """The table as CSV, with the line ends of its standard, so that a line end within a cell is quoted too; one of counts as engines write it."""
    header = [column.name for column in columns]
    records = [header, *([row[name] for name in header] for row in rows)]
    write_text(path, lines_for(columns)(records), mode)
    need_few_bytes(path)


def write_keys(path, rows):
    """The key of each row, in their order, for the owner alone."""
    write_text(path, lines_of([["row", "key"], *enumerate(row[KEY] for row in rows)]), 0o600)


def write_text(path, text, mode):
    """A new file with this text."""
    with open(os.open(path, os.O_WRONLY | os.O_CREAT | os.O_EXCL, mode), "w", encoding="utf-8", newline="") as file:
        file.write(text)


def lines_for(columns):
    """The function that writes the records of a table with these columns as CSV."""
    return lines_of_counts if any(column.kind == COUNT for column in columns) else lines_of


def lines_of(records):
    """Records as CSV."""
    text = io.StringIO(newline="")
    csv.writer(text).writerows(records)
    return text.getvalue()


def lines_of_counts(records):
    """Records as PostgreSQL writes them, so that both ways give one file: line feeds, and quotes around an empty text and where they are needed."""
    return "".join(",".join(map(cell_text, record)) + "\n" for record in records)


def cell_text(value):
    """A value as PostgreSQL writes it into CSV."""
    text = str(value)
    return '"' + text.replace('"', '""') + '"' if not text or any(mark in text for mark in ',"\r\n') else text


def need_few_bytes(path):
    """A Fault if a table is larger than the program reads."""
    if path.stat().st_size > MOST_BYTES:
        raise Fault(f"the table has {path.stat().st_size:,} bytes, and at most {MOST_BYTES:,} are read")


def notes(columns):
    """For each column what people want to read beside its numbers. The program never reads it."""
    found = {}
    for column in columns:
        chosen = column.chosen or {"from": column.name}
        title, bands = f"{chosen['from']}: known" if column.marks else chosen["from"], chosen.get("bands")
        numbers = (
            {key: chosen.get(key) for key in ("decimals", "unit")} if column.kind != "text" and not column.marks else {}
        )
        if bands and not column.marks:
            title, numbers = f"{title}, {read_bands(bands).words()}", {"unit": chosen.get("unit")}
        found[column.name] = {key: value for key, value in {"title": title, **numbers}.items() if value}
    return found


def try_program(folder, program):
    """Has the program itself read both folders, on copies: a Fault with its words if it doesn't take one."""
    if program is None:
        return
    for where, command in ((folder, "init"), (folder / "public", "simulate")):
        with tempfile.TemporaryDirectory() as copy:
            for name in ("schema.json", "table.csv"):
                shutil.copy(where / name, copy)
            run = subprocess.run(
                [program, command], cwd=copy, stdin=subprocess.DEVNULL, capture_output=True, text=True, errors="replace"
            )
        if run.returncode:
            said = run.stderr.strip() or f"status {run.returncode}"
            raise Fault(
                f"auditor {command} doesn't take the files, so nothing is written: {said}"
                + complaint_words(folder, run.returncode, said)
            )


def complaint_words(folder, status, said):
    """What the program's complaint may mean if totals are to be protected, limits are stated, or the questions kept to those who are there."""
    schema = json.loads((folder / "schema.json").read_text(encoding="utf-8"))
    groups, bad = schema.get("protect"), re.fullmatch(r"schema: group (\d+) is bad", said)
    if "only" in schema and status == 3:
        return '. This auditor may be older than the key "only", which keeps questions to those who are there: take a newer one'
    if any(column["is"] == COUNT for column in schema["columns"]) and status == 3:
        return ". This auditor may be older than rows that stand for several people: choose count=none, or take a newer one"
    newer = [("protected totals", "protect=none")] * bool(groups) + [(f"a {key}", f"{key}=none") for key in LIMITS if key in schema]
    newer += [("askers inside", f"{ASKERS}={OUTSIDE}")] * (ASKERS in schema) + [(f"the key {FEWEST}", f"{FEWEST}=none")] * (FEWEST in schema)
    if newer and status == 3:
        what, instead = (" or ".join(words) for words in zip(*newer))
        return f". This auditor may be older than {what}: choose {instead}, or take a newer one"
    if groups and status == 16 and bad and int(bad[1]) < len(groups):
        return f". That is {total_words(groups[int(bad[1])])}"
    return ""

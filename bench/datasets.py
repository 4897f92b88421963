#!/usr/bin/python3
"""Takes data sets of people the way of an office: from the file to totals over all. bench/datasets.sh calls this.

    datasets.py CHOICES FOLDER [PROGRAM [NAME ..]]

CHOICES says by TOML what is chosen of each file of FOLDER. Each goes through `look`, `choose`, `lines`, `make` and `check` of front/prepare.py in a
folder that is gone at the end; then the PROGRAM, if one is given, is asked for the total of each secret column over all, and for its totals by each
public column. A line of the table is a data set: how many people the file has, how many stand in the table, in how many rows, how many of these are
of one person, and how many totals of those that were asked are answered. Without a PROGRAM a total over all counts as one that can be asked if all
people stand in one table. The exit status is 1 if a step fails or a total over all isn't answered."""
import contextlib
import csv
import json
import os
import pathlib
import re
import shutil
import subprocess
import sys
import tempfile
import tomllib
from typing import NamedTuple

FRONT = pathlib.Path(__file__).resolve().parent.parent / "front"
sys.path.insert(0, str(FRONT))
from asking.places import place  # noqa: E402
from asking.questions import parse  # noqa: E402
from asking.replies import Away  # noqa: E402
from asking.tables import ask_cells, cells_to_ask  # noqa: E402
from preparing.choices import COUNT, PUBLIC, SECRET  # noqa: E402

ROWS = re.compile(r"^rows: ([\d,]+)", re.MULTILINE)
HEADER = ("data set", "people in the file", "in the table", "rows", "of one person", "totals over all", "by one column")


class Failed(Exception):
    """A step of a data set that failed, and what was said."""


class Totals(NamedTuple):
    """How many totals were answered of how many."""

    answered: int
    asked: int

    def __str__(self):
        return f"{self.answered:,} of {self.asked:,}"


def run(step, words, folder):
    """What a command printed. Failed, with the last line that it said, if it doesn't end with 0."""
    done = subprocess.run(words, cwd=folder, capture_output=True, text=True, errors="replace")
    if done.returncode:
        raise Failed(f"{step}: {(done.stderr.strip().splitlines() or ['it says nothing'])[-1]}")
    return done.stdout


def prepare(folder, step, *words):
    return run(step, [sys.executable, str(FRONT / "prepare.py"), step, *words], folder)


def make_table(name, words, folder):
    """Makes the table of a file in the folder `made`, and gives how many people the file has. What is made has to pass `check`."""
    choices = pathlib.Path(name).with_suffix(".choices.json").name
    people = ROWS.search(prepare(folder, "look", name))[1]
    prepare(folder, "choose", choices, *words)
    prepare(folder, "lines", name, choices)
    prepare(folder, "make", name, choices, "made")
    prepare(folder, "check", name, choices, "made/table.csv")
    return people


def sizes_of(made):
    """How many people each row of a table stands for."""
    schema = json.loads((made / "schema.json").read_text())
    count = next(column["name"] for column in schema["columns"] if column["is"] == COUNT)
    with open(made / "table.csv", newline="") as table:
        return [int(row[count]) for row in csv.DictReader(table)]


def ask_totals(made, program):
    """The totals over all of each secret column, which are asked first, and those by each public column."""
    run("init", [program, "init"], made)
    with contextlib.closing(place(str(made), program)) as there:
        secret, public = ([name for name, kind in there.columns.items() if kind in kinds] for kinds in (SECRET, PUBLIC))
        publics = {name: kind for name, kind in there.columns.items() if kind not in SECRET}
        over_all = [there.ask(parse(f"sum {name}", there.columns)) for name in secret]
        by_one = []
        for words in (f"totals {name} by {by}" for name in secret for by in public):
            cells = cells_to_ask(parse(words, there.columns), there.rows(), publics)
            by_one += [cell.reply for cell in ask_cells(cells, there.ask)]
    return [Totals(sum("sum" in reply for reply in replies), len(replies)) for replies in (over_all, by_one)]


def line_of(name, file, words, data, program):
    """The line of a data set, and whether each total over all is answered."""
    with tempfile.TemporaryDirectory() as folder:
        shutil.copy(data / file, folder)
        people = make_table(file, words, folder)
        made = pathlib.Path(folder) / "made"
        sizes = sizes_of(made)
        totals = ask_totals(made, program) if program else []
    is_whole = not totals or totals[0].answered == totals[0].asked
    return (name, people, f"{sum(sizes):,}", f"{len(sizes):,}", f"{sizes.count(1):,}", *map(str, totals or ("one table", ""))), is_whole


def main(choices, data, program=None, *names):
    if program:
        program = os.environ["AUDITOR"] = os.path.abspath(program)
    with open(choices, "rb") as file:
        chosen = tomllib.load(file)
    every, whole = chosen.pop("every"), 0
    print(f"| {' | '.join(HEADER)} |\n|---|{'---:|' * (len(HEADER) - 1)}")
    for name, one in ((name, chosen[name]) for name in names or chosen):
        try:
            line, is_whole = line_of(name, one["file"], one["choose"] + every, pathlib.Path(data), program)
        except (Failed, Away, OSError) as fault:
            line, is_whole = (name, f"failed: {fault}"), False
        print(f"| {' | '.join(line)} |", flush=True)
        whole += is_whole
    tried = len(names or chosen)
    print(f"\nTotals over all of {whole} of {tried} data sets")
    return 0 if whole == tried else 1


if __name__ == "__main__":
    sys.exit(main(*sys.argv[1:]))

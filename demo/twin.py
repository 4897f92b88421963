#!/usr/bin/env python3
"""Shows on the demo's table what "nobody can work it out" means: another table, with another number in one row, sends the very same
bytes to the same questions.

    demo/twin.py PROGRAM        the program, as bin/auditor of a package

The report of `auditor audit` says which other tables there are: of a column of sums a change that alters no answer, of a column of
maxima a list of highest numbers, any one of which may be less by 1, and of a column of minima one of lowest numbers, any one of
which may be more by 1. For each number of the table such a table is written, the demo's
questions are asked of it over a fresh journal and then explained, and what is sent is compared byte for byte. Ends with 0 if all are the
same. It shows it of these tables and questions; the proof says it of all.
"""
import csv
import io
import json
import pathlib
import subprocess
import sys
import tempfile

DEMO = pathlib.Path(__file__).resolve().parent
FILES = {name: (DEMO / name).read_bytes() for name in ("schema.json", "table.csv", "questions.jsonl")}


def run(program, command, folder, asked=b""):
    """What a command sends in a folder."""
    done = subprocess.run([program, command], cwd=folder, input=asked, capture_output=True)
    if done.returncode != 0:
        sys.exit(f"twin: auditor {command} ended with {done.returncode}: {done.stderr.decode().strip()}")
    return done.stdout


def ask(program, table, folder):
    """The replies to the demo's questions over a table and a fresh journal, and then why those that were denied are."""
    (folder / "answers.journal").unlink(missing_ok=True)
    (folder / "schema.json").write_bytes(FILES["schema.json"])
    (folder / "table.csv").write_bytes(table)
    run(program, "init", folder)
    return b"".join(run(program, command, folder, FILES["questions.jsonl"]) for command in ("serve", "explain"))


def read_table():
    """The names and the rows of the demo's table."""
    names, *rows = csv.reader(io.StringIO(FILES["table.csv"].decode("utf-8-sig")))
    return names, rows


def with_numbers(names, rows, column, numbers):
    """The bytes of the table with these numbers in a column."""
    place = names.index(column)
    text = io.StringIO()
    writer = csv.writer(text, lineterminator="\n")
    writer.writerow(names)
    for row, number in zip(rows, numbers):
        writer.writerow([*row[:place], number, *row[place + 1:]])
    return text.getvalue().encode()


def twins_of_sums(line, numbers):
    """The numbers of a column of sums with the change of a line of the report, for the row of that line."""
    changes = dict(line["direction"])
    yield line["row"], [number + changes.get(row, 0) for row, number in enumerate(numbers)]


def twins_of_bounds(line, numbers):
    """For each row highest or lowest numbers that give every answer, with another number in that row."""
    bounds, step = (line["high"], -1) if "high" in line else (line["low"], 1)
    for row, number in enumerate(numbers):
        yield row, bounds if bounds[row] != number else [bound + step * (place == row) for place, bound in enumerate(bounds)]


def main():
    if len(sys.argv) != 2:
        sys.exit(__doc__.split("\n\n")[1])
    program = pathlib.Path(sys.argv[1]).resolve()
    names, rows = read_table()
    with tempfile.TemporaryDirectory() as name:
        folder = pathlib.Path(name)
        replies = ask(program, FILES["table.csv"], folder)
        report = [json.loads(line) for line in run(program, "audit", folder).splitlines()]
        count = 0
        for line in report[:-1]:
            column = line["column"]
            numbers = [int(row[names.index(column)]) for row in rows]
            twins = twins_of_sums(line, numbers) if "direction" in line else twins_of_bounds(line, numbers)
            for row, other in twins:
                if other[row] == numbers[row]:
                    sys.exit(f"twin: {column} of row {row} is the same number in the other table")
                if ask(program, with_numbers(names, rows, column, other), folder) != replies:
                    sys.exit(f"twin: with {other[row]} as {column} of row {row} other bytes are sent")
                count += 1
    print(f"{count} numbers: for each another table has another number there, and sends the same {len(replies)} bytes")


if __name__ == "__main__":
    main()

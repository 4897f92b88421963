#!/usr/bin/python3
"""Writes the table of an office that doesn't exist, for front/demo.sh: 240 people with team, site, age and grade, which are
public, and salary, sick days and bonus, which are secret. What the board earns together is protected.

    front/demo_table.py FOLDER
"""
import csv
import json
import pathlib
import random
import sys

COLUMNS = {"team": "text", "site": "text", "age": "number", "grade": "number",
           "salary": "sum", "sick_days": "sum", "bonus": "max"}
PUBLIC = 4
# Team, people, and the monthly pay from which on it goes.
TEAMS = [("Support", 64, 2900), ("Sales, North", 52, 3400), ("Sales, South", 47, 3300), ("Engineering", 41, 4700),
         ("Bob's workshop", 22, 3100), ("Legal", 9, 5200), ("Board", 5, 9000)]
LIMITS = {"width": 4, "reach": 50}
PROTECT = [{"column": "salary", "where": "team = 'Board'"}]
NOTES = {"title": "Staff of an office that doesn't exist", "columns": {
    "salary": {"title": "monthly salary", "decimals": 2, "unit": "EUR"},
    "sick_days": {"title": "sick days"}, "bonus": {"decimals": 2, "unit": "EUR"}}}


def people():
    """The rows, the same at every run."""
    draw = random.Random(5)
    rows = []
    for team, size, pay in TEAMS:
        for _ in range(size):
            age, grade = draw.randrange(19, 66), draw.randrange(1, 7)
            cents = int(pay * 100 * (0.8 + age / 150 + grade / 20) * draw.uniform(0.9, 1.1))
            rows.append((team, draw.choice(["Leeds", "York", "Hull"]), age, grade, cents,
                         draw.randrange(15), draw.randrange(40) * 5000))
    draw.shuffle(rows)
    # As prepare.py orders them: with a width more is answered so.
    return sorted(rows, key=lambda row: row[:PUBLIC])


def write(folder):
    """The two folders that the door wants: the whole table, and in `public` what anybody may see."""
    rows = people()
    (folder / "public").mkdir(parents=True)
    schema = json.dumps({"columns": [{"name": name, "is": kind} for name, kind in COLUMNS.items()], **LIMITS, "protect": PROTECT})
    for place, width in ((folder, len(COLUMNS)), (folder / "public", PUBLIC)):
        (place / "schema.json").write_text(schema)
        with open(place / "table.csv", "w", newline="") as file:
            csv.writer(file).writerows([list(COLUMNS)[:width], *(row[:width] for row in rows)])
    (folder / "table.csv").chmod(0o600)
    (folder / "public" / "notes.json").write_text(json.dumps(NOTES))


if __name__ == "__main__":
    if len(sys.argv) != 2:
        sys.exit("usage: demo_table.py FOLDER")
    write(pathlib.Path(sys.argv[1]))

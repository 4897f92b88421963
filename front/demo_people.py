#!/usr/bin/python3
"""Writes a table whose rows stand for 100,000 people who don't exist, for front/demo.sh: region, sector and age in bands of ten, which are public,
and wage and sick days, which are secret. Some rows stand for thousands of people, some for one.

    front/demo_people.py FOLDER
"""
import contextlib
import csv
import io
import pathlib
import random
import sys
import tempfile

import prepare

PEOPLE = 100_000
REGIONS = ["North", "East", "South", "West", "Lakes", "Coast", "Hills", "Islands"]
SECTORS = ["Care", "Trade", "Building", "Schools", "Offices", "Transport", "Farming", "Hotels", "Software", "Mining", "Law", "Arts"]
CHOICES = ["region=text", "sector=text", "age=number", "age.bands=10", "wage=sum", "wage.range=0 to none", "sick_days=sum",
           "sick_days.range=0 to 365", "count=people", "protect=none", "askers=outside"]


def people(number):
    """A row for each person, the same at every run: the later regions, sectors and ages have fewer people."""
    draw = random.Random(11)
    drawn = [draw.choices(values, [1 / (place + 1) ** power for place in range(len(values))], k=number)
             for values, power in ((REGIONS, 1.7), (SECTORS, 1.9), (range(6), 1.2))]
    for region, sector, decade in zip(*drawn):
        age = 10 * decade + 20 + draw.randrange(10)
        yield region, sector, age, 10 * round(draw.lognormvariate(5.6, 0.4)), draw.choice((0, 0, 0, 1, 2, 3, 5, 8, 13, 60))


def prepared(*words):
    """Has prepare.py do what the arguments say; what it says is printed if it fails."""
    said = io.StringIO()
    with contextlib.redirect_stdout(said), contextlib.redirect_stderr(said):
        status = prepare.main([str(word) for word in words])
    if status:
        sys.exit(said.getvalue())
    return said.getvalue()


def write(folder, number=PEOPLE):
    """The folder of the table, by look, choose and make, and a line that says for how many people it stands."""
    with tempfile.TemporaryDirectory() as beside:
        path = pathlib.Path(beside, "people.csv")
        with open(path, "w", encoding="utf-8", newline="") as file:
            csv.writer(file, lineterminator="\n").writerows([["region", "sector", "age", "wage", "sick_days"], *people(number)])
        choices = path.with_suffix(".choices.json")
        prepared("look", path)
        prepared("choose", choices, *CHOICES)
        said = prepared("make", path, choices, folder)
    return next(line for line in said.splitlines() if " people in " in line)


if __name__ == "__main__":
    if len(sys.argv) != 2:
        sys.exit("usage: demo_people.py FOLDER")
    print(write(sys.argv[1]), file=sys.stderr)

#!/usr/bin/env python3
"""How many monthly totals are answered over a table that lives. bench/months.sh calls this.

    months.py PROGRAM

Works in the folder that it is called in. 200 people in ten teams of 20, a year long: each month the total of everybody and of each team is
asked of one journal, over those who are current. Who moves goes to a team by chance; who has another number has a new row."""
import json
import os
import random
import subprocess
import sys
from typing import NamedTuple

TEAMS, SIZE, MONTHS, TABLES = 10, 20, 12, 5
COLUMNS = [("team", "text"), ("current", "number"), ("salary", "sum")]
WHERES = ["current = 1"] + [f"current = 1 and team = 'T{team}'" for team in range(TEAMS)]
QUESTIONS = "".join(json.dumps({"ask": "sum", "column": "salary", "where": where}) + "\n" for where in WHERES)


class Month(NamedTuple):
    """How many people move, leave, come and have another number in each month but the first."""

    moves: int
    leaves: int
    comes: int
    changes: int

    def __str__(self):
        words = [("move", self.moves), ("leave", self.leaves), ("come", self.comes), ("have another number", self.changes)]
        return ", ".join(f"{number} {word}" for word, number in words if number) or "nobody changes"


def drawn(chance):
    return chance.randint(20_000, 90_000)


def change(rows, month, chance):
    """What happens in a month: rows are lists of a team, whether it is current, and a salary."""
    here = [row for row in rows if row[1]]
    chance.shuffle(here)
    move, leave = here[: month.moves], here[month.moves : month.moves + month.leaves]
    other = here[month.moves + month.leaves :][: month.changes]
    for row in move:
        row[0] = f"T{chance.randrange(TEAMS)}"
    rows += [[row[0], 1, row[2] + chance.randint(100, 3000)] for row in other]
    for row in leave + other:
        row[1] = 0
    rows += [[f"T{chance.randrange(TEAMS)}", 1, drawn(chance)] for _ in range(month.comes)]


def run(program, command, text=""):
    done = subprocess.run([program, command], input=text, capture_output=True, text=True)
    if done.returncode:
        sys.exit(f"months: auditor {command} ended with {done.returncode}: {done.stderr.strip()}")
    return done.stdout.split()


def year(program, seed, month):
    """For each month but the first whether the total of everybody was answered, and of how many teams."""
    chance = random.Random(seed)
    rows, answered = [[f"T{place // SIZE}", 1, drawn(chance)] for place in range(TEAMS * SIZE)], []
    if os.path.exists("answers.journal"):
        os.remove("answers.journal")
    for number in range(MONTHS):
        before = len(rows)
        if number:
            change(rows, month, chance)
        with open("table.csv", "w") as table:
            table.write("team,current,salary\n" + "".join(f"{team},{current},{salary}\n" for team, current, salary in rows))
        if not number or len(rows) > before:
            run(program, "grow" if number else "init")
        whole, *teams = [reply.startswith('{"sum"') for reply in run(program, "serve", QUESTIONS)]
        answered.append((whole, sum(teams)))
    return answered[1:]


def main(program):
    with open("schema.json", "w") as schema:
        json.dump({"columns": [{"name": name, "is": kind} for name, kind in COLUMNS]}, schema)
    months = [Month(0, 0, 0, 0), Month(1, 0, 0, 0), Month(4, 0, 0, 0), Month(20, 0, 0, 0), Month(0, 2, 2, 0), Month(4, 2, 2, 0),
              Month(0, 0, 0, 4), Month(0, 0, 0, 20), Month(4, 2, 2, 10)]
    denied = 0
    for month in months:
        years = [year(program, seed, month) for seed in range(TABLES)]
        later = [one for months_of_year in years for one in months_of_year]
        teams, last = sum(teams for _, teams in later) / len(later), sum(one[-1][1] for one in years) / TABLES
        denied += sum(not whole for whole, _ in later)
        print(f"{month}: of {TEAMS} teams {teams:.1f} a month, in the last one {last:.1f}; everybody in {sum(whole for whole, _ in later)} of {len(later)}", flush=True)
    return 1 if denied else 0


if __name__ == "__main__":
    sys.exit(main(sys.argv[1]))

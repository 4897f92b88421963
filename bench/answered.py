#!/usr/bin/env python3
"""Asks the same questions of tables without further keys of the schema and with them. bench/answered.sh calls this.

    answered.py PROGRAM [--by-chance] KEY=VALUE ..

Works in the folder that it is called in. Of each table, of 200, 400 and 1,000 people with an area, a sector, a class and an age, four lists of
sums are asked, each of a fresh journal: the report, all totals by one and by two of the columns (the age in bands of ten years), those over
the most people first; and by chance 1,000 conjunctions of two or three conditions, 500 steps of drilling down, each a condition more, and 300
intervals of ages. Rows stand in the order of their public cells, as front/prepare.py writes them, or with --by-chance by chance: with a
width the order counts. Prints for each list how many are answered without the keys and with them. The exit status is 1 if a reply is neither
a sum nor a denial."""
import itertools
import json
import os
import random
import subprocess
import sys

PEOPLE = (200, 400, 1000)
COLUMNS = {"area": 6, "sector": 8, "class": 3}
AGES = (20, 64)


def drawn(people, draw):
    """Rows of area, sector, class and age. The first values of a column are the most common ones."""
    return [[min(int(draw.expovariate(3 / size)), size - 1) for size in COLUMNS.values()] + [draw.randint(*AGES)] for _ in range(people)]


def write(rows, keys):
    columns = [{"name": name, "is": "number"} for name in (*COLUMNS, "age")] + [{"name": "v", "is": "sum"}]
    with open("schema.json", "w") as schema:
        json.dump({"columns": columns, **keys}, schema)
    with open("table.csv", "w") as table:
        print(*COLUMNS, "age", "v", sep=",", file=table)
        for place, row in enumerate(rows):
            print(*row, 1000 + 37 * place % 911, sep=",", file=table)


def bands():
    return [f"age >= {low} and age <= {low + 9}" for low in range(AGES[0], AGES[1], 10)]


def report(rows):
    """All totals by one and by two columns, those over the most people first."""
    by_column = [[f"{name} = {value}" for value in range(size)] for name, size in COLUMNS.items()] + [bands()]
    cells = [cell for names in by_column for cell in names]
    cells += [f"{one} and {other}" for names, others in itertools.combinations(by_column, 2) for one in names for other in others]
    sizes = {cell: sum(holds(cell, row) for row in rows) for cell in ["all", *cells]}
    return sorted((cell for cell, size in sizes.items() if size), key=lambda cell: -sizes[cell])


def holds(cell, row):
    """Whether a row satisfies a condition of a report."""
    row = dict(zip((*COLUMNS, "age"), row), all=True)
    return eval(cell.replace("class", "klass").replace(" = ", " == "), {"__builtins__": {}}, {**row, "klass": row["class"]})


def one_condition(draw):
    name = draw.choice([*COLUMNS, "age"])
    if name == "age":
        return "age >= %d and age <= %d" % tuple(sorted(draw.sample(range(AGES[0], AGES[1] + 1), 2)))
    return f"{name} = {draw.randrange(COLUMNS[name])}"


def conjunctions(draw):
    return [" and ".join(one_condition(draw) for _ in range(draw.choice([2, 3]))) for _ in range(1000)]


def drill_down(draw):
    """Steps from everybody to a condition, to that and one more, and so on."""
    steps = []
    while len(steps) < 500:
        order = draw.sample(list(COLUMNS), len(COLUMNS))
        parts = [f"{name} = {draw.randrange(COLUMNS[name])}" for name in order]
        steps += [" and ".join(parts[:depth]) for depth in range(1, len(parts) + 1)]
    return steps[:500]


def intervals(draw):
    return ["age >= %d and age <= %d" % tuple(sorted(draw.choices(range(AGES[0], AGES[1] + 1), k=2))) for _ in range(300)]


def run(program, words, given=""):
    return subprocess.run([program, *words.split()], input=given, capture_output=True, text=True, check=True).stdout


def answered(program, rows, wheres, keys):
    """How many of these sums are answered, and how many are asked of somebody."""
    if os.path.exists("answers.journal"):
        os.remove("answers.journal")
    write(rows, keys)
    run(program, "init")
    lines = (json.dumps({"ask": "sum", "column": "v", "where": where}, separators=(",", ":")) + "\n" for where in wheres)
    replies = [json.loads(line) for line in run(program, "serve --batch 64", "".join(lines)).splitlines()]
    kept = [reply for reply in replies if reply != {"refused": "empty"}]
    if not all("sum" in reply or "denied" in reply for reply in kept):
        sys.exit("answered: a reply is neither a sum nor a denial")
    return sum("sum" in reply for reply in kept), len(kept)


def main():
    program, *words = sys.argv[1:]
    keys = {key: json.loads(value) for key, value in (word.split("=", 1) for word in words if word != "--by-chance")}
    for people in PEOPLE:
        draw = random.Random(people)
        rows = drawn(people, draw) if "--by-chance" in words else sorted(drawn(people, draw))
        lists = {"report": report(rows), "conjunctions": conjunctions(draw), "drill-down": drill_down(draw), "intervals": intervals(draw)}
        for name, wheres in lists.items():
            before, asked = answered(program, rows, wheres, {})
            after, _ = answered(program, rows, wheres, keys)
            print(f"{people} people, {name}: {asked} asked, {100 * before / asked:.1f} % answered, with the keys {100 * after / asked:.1f} %")


if __name__ == "__main__":
    sys.exit(main())

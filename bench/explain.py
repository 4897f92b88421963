#!/usr/bin/env python3
"""Times `explain` over histories of 1,024 rows, or of as many as are given, beside the plain program. bench/explain.sh builds the plain one and calls this.

    explain.py AUDITOR PLAIN [--only maxima] [--lines 200] [--rows 1024]

Works in the folder that it is called in. For each workload it makes a history, draws questions that are denied as unsafe after it, and
prints the processor seconds that opening the journal takes, those that the first certificate takes besides, the milliseconds of each further
one, and the peak of memory, of both programs. The exit status is 1 if the lines of both differ, or if the auditor takes more than a second for
the first certificate, more than 10 ms for a further one, or more than 64 MiB. The questions are of the first column; the last workload asks
eight columns, one after the other: each time another column's certificates begin, so of it the memory alone is judged. Of more than 1,024 rows
there are more records in proportion, and nothing but the lines is judged."""
import argparse
import json
import os
import random
import sys

from pace import condition, run

ROWS = 1024  # if no other number is given
AT_ONCE = 200
FIRST, FURTHER, MOST_MEMORY = 1.0, 10.0, 64.0
# The sets, the kinds of the secret columns, how many records, and whether the times are judged.
WORKLOADS = [
    ("intervals", ["sum"], 1200, True),
    ("intervals-or-groups", ["sum", "max"], 1200, True),
    ("maxima", ["max"], 1800, True),
    ("columns", ["sum"] * 8, 1200, False),
]


def write_table(kinds, rows):
    draw = random.Random(29)
    names = [f"v{place}" for place in range(len(kinds))]
    columns = [{"name": name, "is": "number"} for name in ("k", "g")] + [{"name": name, "is": kind} for name, kind in zip(names, kinds)]
    with open("schema.json", "w") as schema:
        json.dump({"columns": columns}, schema)
    with open("table.csv", "w") as table:
        print("k", "g", *names, sep=",", file=table)
        for row in range(rows):
            print(row, draw.randrange(8), *(draw.randrange(10**4) for _ in kinds), sep=",", file=table)


def questions(sets, kinds, draw, count, rows):
    """Some lines; those of eight columns come column by column."""
    lines = []
    for line in range(count):
        place = line * len(kinds) // count if sets == "columns" else line % len(kinds)
        where = condition("intervals" if sets in ("maxima", "columns") else sets, rows, line, draw)
        lines.append(json.dumps({"ask": kinds[place], "column": f"v{place}", "where": where}, separators=(",", ":")) + "\n")
    return lines


def send(program, command, lines):
    """What a run sends for some lines, its processor seconds, and its peak of memory."""
    with open("lines.jsonl", "w") as asked:
        asked.writelines(lines)
    seconds, peak = run(program, command, "lines.jsonl", "sent.jsonl")
    with open("sent.jsonl") as sent:
        return sent.read().splitlines(), seconds, peak


def make_history(program, sets, kinds, wanted, rows):
    """A journal with about as many records as wanted, or as many as random questions give."""
    if os.path.exists("answers.journal"):
        os.remove("answers.journal")
    write_table(kinds, rows)
    send(program, "init", [])
    draw, records, asked = random.Random(23), 0, 0
    while records < wanted and asked < 10 * wanted:
        replies, _, _ = send(program, "serve", questions(sets, kinds, draw, AT_ONCE, rows))
        records, asked = records + sum("denied" not in reply for reply in replies), asked + AT_ONCE
    return records


def unsafe_questions(plain, sets, kinds, count, rows):
    """So many questions that have a certificate, if as many come up: of the first column, or of eight in their order."""
    found = []
    for seed in range(20):
        lines = questions(sets, kinds if sets == "columns" else kinds[:1], random.Random(seed), 2000, rows)
        said, _, _ = send(plain, "explain", lines)
        found += [line for line, reply in zip(lines, said) if '"asked"' in reply and "proof" not in reply]
        if len(found) >= count:
            break
    found = found[::max(1, len(found) // count)][:count]
    return sorted(found, key=lambda line: json.loads(line)["column"]) if sets == "columns" else found


def measure(program, lines):
    """The lines sent, the seconds of opening and of the first certificate, milliseconds of each further one, and the peak of memory."""
    _, opening, _ = send(program, "explain", [])
    _, one, _ = send(program, "explain", lines[:1])
    sent, all_of_them, peak = send(program, "explain", lines)
    return sent, opening, one - opening, 1000 * (all_of_them - one) / max(1, len(lines) - 1), peak


def show(name, who, records, count, figures):
    _, opening, first, further, peak = figures
    print(f"{name:20} {who:8} {records:7} {count:5} {opening:9.2f} {first:7.2f} {further:10.2f} {peak:6.1f}", flush=True)


def main():
    words = argparse.ArgumentParser()
    words.add_argument("auditor")
    words.add_argument("plain")
    words.add_argument("--only", default="")
    words.add_argument("--lines", type=int, default=200)
    words.add_argument("--rows", type=int, default=ROWS)
    given = words.parse_args()
    print(f"{'workload':20} {'program':8} {'records':>7} {'lines':>5} {'opening s':>9} {'first s':>7} {'further ms':>10} {'MiB':>6}")
    well = True
    for sets, kinds, wanted, judged in WORKLOADS:
        if given.only not in sets:
            continue
        records = make_history(given.plain, sets, kinds, wanted * given.rows // ROWS, given.rows)
        lines = unsafe_questions(given.plain, sets, kinds, given.lines, given.rows)
        figures = {name: measure(program, lines) for name, program in (("auditor", given.auditor), ("plain", given.plain))}
        for name, found in figures.items():
            show(sets, name, records, len(lines), found)
        sent, _, first, further, peak = figures["auditor"]
        if not lines or sent != figures["plain"][0]:
            print(f"{sets}: the lines of both programs differ, or there are none")
            well = False
        well = well and (given.rows > ROWS or peak <= MOST_MEMORY and (not judged or first <= FIRST and further <= FURTHER))
    return 0 if well else 1


if __name__ == "__main__":
    sys.exit(main())

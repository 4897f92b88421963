#!/usr/bin/env python3
"""Times sums over the densest form that a table can have, beside the plain program. bench/dense.sh builds the plain one and calls this.

    dense.py AUDITOR PLAIN [--rows 1024,4096] [--later 30] [KEY=VALUE ..]

Works in the folder that it is called in. For each number of rows it asks half as many sums, each over one row of the first half and all but one
of the second: their reduced form has an entry for each row of the first half and almost each of the second. Then it asks sums over about half of
all rows, each of which has to be cleared at all of these. It prints how many of the first and of the later sums were answered, the milliseconds of
a later one, the peak of memory, and the processor seconds of opening the journal that is left, of both programs. KEY=VALUE are further keys of
the schema. The exit status is 1 if replies differ."""
import argparse
import json
import os
import random
import sys

from pace import run, write_table


def filling(rows):
    """The conditions of the sums that fill the form."""
    half = rows // 2
    return [f"k = {row} or k >= {half} and k != {half + row}" for row in range(half)]


def over_halves(rows, count):
    """Those of the sums that are cleared at all of it: half of the first half, and a quarter of the second."""
    draw, half = random.Random(5), rows // 2

    def bit():
        return f"h{draw.randrange(12)} = {draw.randrange(2)}"

    return [f"k < {half} and {bit()} or k >= {half} and {bit()} and {bit()}" for _ in range(count)]


def write_lines(name, conditions):
    with open(name, "w") as lines:
        for where in conditions:
            print(json.dumps({"ask": "sum", "column": "v", "where": where}, separators=(",", ":")), file=lines)


def ask(program, lines, replies):
    """The seconds and the peak of memory of a run with a fresh journal, and how many lines were answered."""
    if os.path.exists("answers.journal"):
        os.remove("answers.journal")
    run(program, "init", "none.jsonl", "nothing")
    seconds, peak = run(program, "serve", lines, replies)
    with open(replies) as said:
        return seconds, peak, sum(line.startswith('{"sum"') for line in said)


def measure(program, later, replies):
    """How many lines were answered, of those that fill the form and of those after them, the milliseconds of each of these, the peak of memory
    and the seconds of opening."""
    filled, _, first = ask(program, "filling.jsonl", "nothing")
    all_of_them, peak, answered = ask(program, "questions.jsonl", replies)
    opening, _ = run(program, "serve", "none.jsonl", "nothing")
    return first, answered - first, 1000 * (all_of_them - filled) / later, peak, opening


def main():
    words = argparse.ArgumentParser()
    words.add_argument("auditor")
    words.add_argument("plain")
    words.add_argument("--rows", default="1024,4096")
    words.add_argument("--later", type=int, default=30)
    words.add_argument("keys", nargs="*", metavar="KEY=VALUE")
    given = words.parse_intermixed_args()
    keys = {key: json.loads(value) for key, value in (word.split("=", 1) for word in given.keys)}
    print(f"{'rows':>5} {'program':8} {'filling':>7} {'later':>5} {'later ms':>8} {'MiB':>6} {'opening s':>9}   {' '.join(given.keys)}".rstrip())
    same = True
    for rows in map(int, given.rows.split(",")):
        write_table(rows, 0, **keys)
        write_lines("none.jsonl", [])
        write_lines("filling.jsonl", filling(rows))
        write_lines("questions.jsonl", filling(rows) + over_halves(rows, given.later))
        for name, program in (("auditor", given.auditor), ("plain", given.plain)):
            first, later, each, peak, opening = measure(program, given.later, name + ".replies")
            print(f"{rows:5} {name:8} {first:7} {later:5} {each:8.2f} {peak:6.1f} {opening:9.2f}", flush=True)
        with open("auditor.replies", "rb") as one, open("plain.replies", "rb") as other:
            if one.read() != other.read():
                print(f"{rows:5} replies differ")
                same = False
    return 0 if same else 1


if __name__ == "__main__":
    sys.exit(main())

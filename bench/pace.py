#!/usr/bin/env python3
"""Times the built program beside the plain one on the same workloads. bench/pace.sh builds the plain one and calls this.

    pace.py AUDITOR PLAIN LARGE [--rounds 3] [--only 1024-intervals-max] [--opening] [--shared] [KEY=VALUE ..]

Runs both in turn in the folder that it is called in, and prints for each workload the least processor time of each, the
auditor's peak of memory, and the ratio of the two times: 1 is as fast as the plain program, 2 twice as fast. With --opening
it times a run without questions over the journal that the workload left, which decides each record again. With --shared every
other row stands for three people. LARGE is the plain program that is built for tables of 4,096 rows, and is asked over these. KEY=VALUE are further keys of the schema. The exit status is 1 if replies differ."""
import argparse
import json
import os
import random
import subprocess
import sys

# The sets, what is asked of them, how many questions, and how many totals are protected.
WORKLOADS = [
    ("intervals", "count", 20000, 0),
    ("intervals", "sum", 2000, 0),
    ("intervals", "sum", 2000, 64),
    ("intervals-or-groups", "both", 2000, 0),
    ("triples", "sum", 2000, 0),
    ("halves", "sum", 300, 0),
    ("cycle", "sum", 1000, 0),
    ("intervals", "max", 2000, 0),
]
COLUMNS = {"sum": "v", "max": "m"}


def condition(sets, rows, line, draw):
    """A condition over a table whose column `k` has the numbers from 0 up to the number of rows."""
    if sets.startswith("intervals"):
        low, high = sorted((draw.randrange(rows), draw.randrange(rows)))
        interval = f"k >= {low} and k <= {high}"
        return interval if sets == "intervals" else f"{interval} or g = {draw.randrange(8)}"
    if sets == "triples":
        return "k in (%d, %d, %d)" % tuple(draw.sample(range(rows), 3))
    if sets == "halves":
        parts = [(draw.randrange(12), draw.randrange(12), draw.randrange(2)) for _ in range(3)]
        return " or ".join("h%d = 1 and h%d = %d" % part for part in parts)
    return "k in (%d, %d, %d)" % (line % rows, (line + 1) % rows, (line + 3) % rows)


def write_questions(sets, ask, rows, count):
    draw = random.Random(23)
    with open("questions.jsonl", "w") as questions:
        for line in range(count):
            one = ask if ask != "both" else "max" if line % 3 == 2 else "sum"
            question = {"ask": one, "where": condition(sets, rows, line, draw)}
            if one in COLUMNS:
                question["column"] = COLUMNS[one]
            print(json.dumps(question, separators=(",", ":")), file=questions)
    open("none.jsonl", "w").close()


def protected(rows, count):
    """So many groups of a twentieth of the rows, next to one another."""
    draw = random.Random(31)
    lows = [draw.randrange(rows - rows // 20) for _ in range(count)]
    return [{"column": "v", "where": f"k >= {low} and k < {low + rows // 20}"} for low in lows]


def write_schema(columns, groups, keys):
    guarded = {"protect": groups} if groups else {}
    with open("schema.json", "w") as schema:
        json.dump({"columns": columns, **guarded, **keys}, schema)


def write_table(rows, groups, shared=False, **keys):
    draw = random.Random(29)
    halves = [f"h{k}" for k in range(12)]
    roles = {"k": "number", "g": "number", **dict.fromkeys(halves, "number"), "v": "sum", "m": "max"}
    if shared:
        roles["people"] = "count"
    columns = [{"name": name, "is": role} for name, role in roles.items()]
    write_schema(columns, protected(rows, groups), keys)
    with open("table.csv", "w") as table:
        print(*roles, sep=",", file=table)
        for row in range(rows):
            bits = [draw.randrange(8)] + [draw.randrange(2) for _ in halves]
            people = [3 if row % 2 else 1] if shared else []
            print(row, *bits, draw.randrange(10**6), draw.randrange(10**4), *people, sep=",", file=table)


def run(program, command, questions, replies):
    """The processor seconds and the peak of memory, in MiB, of one run."""
    with open(questions, "rb") as asked, open(replies, "wb") as said:
        child = subprocess.Popen([program, command], stdin=asked, stdout=said)
        _, status, used = os.wait4(child.pid, 0)
    child.returncode = os.waitstatus_to_exitcode(status)
    if child.returncode != 0:
        sys.exit(f"{program} {command} ended with status {child.returncode}")
    return used.ru_utime + used.ru_stime, used.ru_maxrss / 1024


def measure(program, opening, replies):
    if os.path.exists("answers.journal"):
        os.remove("answers.journal")
    run(program, "init", "none.jsonl", "nothing")
    spent = run(program, "serve", "questions.jsonl", replies)
    return run(program, "serve", "none.jsonl", "nothing") if opening else spent


def compare(programs, rounds, opening):
    """The least time and the peak of each program, and whether their replies are equal."""
    best = {}
    for _ in range(rounds):
        for name, program in programs.items():
            spent, peak = measure(program, opening, name + ".replies")
            least, most = best.get(name, (spent, peak))
            best[name] = min(least, spent), max(most, peak)
    replies = [open(name + ".replies", "rb").read() for name in programs]
    return best, replies[0] == replies[1]


def main():
    words = argparse.ArgumentParser()
    words.add_argument("auditor")
    words.add_argument("plain")
    words.add_argument("large")
    words.add_argument("--rounds", type=int, default=3)
    words.add_argument("--only", default="")
    words.add_argument("--opening", action="store_true")
    words.add_argument("--shared", action="store_true")
    words.add_argument("keys", nargs="*", metavar="KEY=VALUE")
    given = words.parse_intermixed_args()
    keys = {key: json.loads(value) for key, value in (word.split("=", 1) for word in given.keys)}
    print(f"{'workload':32} {'auditor s':>10} {'plain s':>9} {'ratio':>7} {'MiB':>6}")
    ratios, all_equal = [], True
    for rows, plain in ((200, given.plain), (1024, given.plain), (4096, given.large)):
        programs = {"auditor": given.auditor, "plain": plain}
        for sets, ask, count, groups in WORKLOADS:
            name = f"{rows}-{sets}-{ask}" + (f"-{groups}-protected" if groups else "")
            if given.only not in name:
                continue
            write_table(rows, groups, given.shared, **keys)
            write_questions(sets, ask, rows, count)
            best, equal = compare(programs, given.rounds, given.opening)
            (spent, peak), (beside, _) = best["auditor"], best["plain"]
            ratios.append(beside / spent)
            all_equal = all_equal and equal
            note = "" if equal else "  replies differ"
            print(f"{name:32} {spent:10.3f} {beside:9.3f} {ratios[-1]:7.2f} {peak:6.1f}{note}", flush=True)
    print(f"least ratio {min(ratios):.2f}")
    sys.exit(0 if all_equal else 1)


if __name__ == "__main__":
    main()

#!/usr/bin/env python3
"""Counts the instructions of the built program on small workloads, and compares them with those written down. bench/floor.sh calls this.

    floor.py PROGRAM COUNTS [--write]

Works in the folder that it is called in. A way to be fast that no clause asks for shows here when it is gone: the exit status is 1
if a workload takes more than a tenth above its count. One that takes a tenth less is named, and may be written down. Nothing is
said of time: what the system does for the program isn't counted."""
import os
import re
import subprocess
import sys

from pace import write_questions, write_table

# The name, the rows, the sets, what is asked of them, how many questions, and the command that is counted.
WORKLOADS = [
    ("counts", 200, "intervals", "count", 3000, "serve"),
    ("sums-intervals", 200, "intervals", "sum", 1000, "serve"),
    ("sums-triples", 1024, "triples", "sum", 500, "serve"),
    ("sums-halves", 200, "halves", "sum", 250, "serve"),
    ("sums-cycle", 1024, "cycle", "sum", 400, "serve"),
    ("maxima", 1024, "intervals", "max", 1000, "serve"),
    ("sums-4096", 4096, "intervals", "sum", 500, "serve"),
    ("maxima-4096", 4096, "intervals", "max", 500, "serve"),
    ("audit", 200, "intervals-or-groups", "both", 400, "audit"),
    ("simulate", 200, "intervals-or-groups", "both", 600, "simulate"),
    ("explain", 200, "intervals-or-groups", "both", 400, "explain"),
]
ABOVE = 1.1


def run(program, command, given, taken, counter=()):
    """Runs a command of the program, under valgrind if that is given, with nothing in its environment that could differ."""
    with open(given, "rb") as asked, open(taken, "wb") as said:
        ended = subprocess.run([*counter, program, command], stdin=asked, stdout=said, stderr=subprocess.PIPE, env={"PATH": "/usr/bin:/bin"})
    if ended.returncode != 0:
        sys.exit(f"floor: {command} ended with status {ended.returncode}: {ended.stderr.decode()}")


def count(program, command, given):
    """The instructions of one run."""
    tool = ["valgrind", "--tool=cachegrind", "--cache-sim=no", "--cachegrind-out-file=/dev/null", "--log-file=counted"]
    run(program, command, given, "taken", tool)
    with open("counted") as counted:
        return int(re.search(r"I\s+refs:\s+([\d,]+)", counted.read())[1].replace(",", ""))


def prepare(program, rows, sets, ask, questions, command):
    """The files of a workload, over which its command is counted, and the name of its input."""
    write_table(rows, 0)
    write_questions(sets, ask, rows, questions)
    if os.path.exists("answers.journal"):
        os.remove("answers.journal")
    run(program, "init", "none.jsonl", "nothing")
    if command == "serve":
        return "questions.jsonl"
    run(program, "serve", "questions.jsonl", "replies.jsonl")
    if command == "audit":
        return "none.jsonl"
    if command == "explain":
        leave_the_denied()
        return "denied.jsonl"
    leave_the_public_part()
    return "transcript.jsonl"


def leave_the_public_part():
    """Takes the secret columns, which are the last two, out of the table, makes a transcript of questions and replies, and leaves no journal:
    `simulate` would begin with its answers."""
    os.unlink("answers.journal")
    with open("table.csv") as table:
        lines = [line.rsplit(",", 2)[0] for line in table]
    with open("table.csv", "w") as table:
        print(*lines, sep="\n", file=table)
    with open("questions.jsonl") as asked, open("replies.jsonl") as said, open("transcript.jsonl", "w") as transcript:
        for question, reply in zip(asked, said, strict=True):
            transcript.write(question + reply)


def leave_the_denied():
    """Writes down the questions that were denied."""
    with open("questions.jsonl") as asked, open("replies.jsonl") as said, open("denied.jsonl", "w") as denied:
        denied.writelines(question for question, reply in zip(asked, said, strict=True) if "denied" in reply)


def read_counts(path):
    with open(path) as written:
        return {name: int(number) for name, number in map(str.split, written)}


def main():
    program, path, *options = sys.argv[1:]
    counts = {name: count(program, workload[-1], prepare(program, *workload)) for name, *workload in WORKLOADS}
    if options == ["--write"]:
        with open(path, "w") as written:
            for name, number in counts.items():
                print(name, number, file=written)
    floors = read_counts(path)
    above = 0
    for name, number in counts.items():
        if name not in floors:
            print(f"{name:16} {number:13,}  not written down: --write does it")
            above += 1
            continue
        ratio = number / floors[name]
        note = "  too many" if ratio > ABOVE else "  fewer: may be written down" if ratio < 1 / ABOVE else ""
        above += ratio > ABOVE
        print(f"{name:16} {number:13,} of {floors[name]:13,}  {ratio:.3f}{note}")
    return 1 if above else 0


if __name__ == "__main__":
    sys.exit(main())

#!/usr/bin/env python3
"""Makes a transcript with the built program, and times `simulate` on it. bench/simulate.sh calls this.

    simulate.py PROGRAM

Works in the folder that it is called in. The exit status is 1 if the verdict on a question isn't that of the reply that it got."""
import json
import subprocess
import sys

from floor import leave_the_public_part
from pace import run, write_questions, write_table

ROWS = 1000
EXCHANGES = 58_000
RUNS = 5


def answer(program):
    """Has the questions answered over a journal of their own."""
    run(program, "init", "none.jsonl", "nothing")
    with open("questions.jsonl", "rb") as asked, open("replies.jsonl", "wb") as said:
        subprocess.run([program, "serve", "--batch", "64"], stdin=asked, stdout=said, check=True)


def verdict(reply):
    """The verdict on a question of a secret column that got this reply."""
    if "sum" in reply or "max" in reply:
        return "released"
    return reply.get("denied", "refused")


def main():
    program = sys.argv[1]
    write_table(ROWS, 0)
    write_questions("intervals", "both", ROWS, EXCHANGES)
    answer(program)
    leave_the_public_part()
    spent = min(run(program, "simulate", "transcript.jsonl", "verdicts.jsonl")[0] for _ in range(RUNS))
    with open("replies.jsonl") as said:
        due = [verdict(json.loads(reply)) for reply in said]
    with open("verdicts.jsonl") as sent:
        same = [json.loads(line)["verdict"] for line in sent] == due
    print(f"{EXCHANGES:,} exchanges over {ROWS:,} rows, {due.count('released'):,} of them answered: {spent:.2f} s")
    return 0 if same else 1


if __name__ == "__main__":
    sys.exit(main())

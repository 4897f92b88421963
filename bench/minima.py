#!/usr/bin/env python3
"""Asks minima of random tables, and compares two programs. bench/minima.sh calls this.

    minima.py PROGRAM PLAIN QUESTIONS SEED

Works in the folder that it is called in. A round draws a small table with columns of minima, in some rounds with other secret columns
beside them, and has both programs answer a hundred random questions over a fresh journal. Each minimum that is told has to be that of the
table as this page finds it; the replies, the journals, the reports and what is explained of a hundred other questions have to be the same, byte for
byte. The exit status is 1 if something differs."""
import json
import sys

from certificates import compact
from kept import MIN, Draw, read, remove, run, write

AT_ONCE = 100


class Least(Draw):
    """A draw whose first secret column is one of minima."""

    def __init__(self, seed):
        super().__init__([], seed)
        self.kinds = [MIN, *self.kinds[1:]]

    def chosen(self, where):
        """The rows of a condition, read by Python: these conditions are Python's too, but for one sign, commas and `all`."""
        text = where.replace(" = ", " == ").replace("(", "[").replace(")", "]")
        return [row for row in self.cells if where == "all" or eval(text, {}, {"id": row[0], "part": row[1]})]


def is_true(drawn, line, reply):
    """Whether a minimum that is told is the table's."""
    question, said = json.loads(line), json.loads(reply)
    place = int(question["column"][1:])
    return "min" not in said or said["min"] == min(row[2 + place] for row in drawn.chosen(question["where"]))


def one_round(programs, seed):
    """Whether both programs send and keep the same, and tell the table's minima; how many questions on minima were asked and answered."""
    drawn = Least(seed)
    write("schema.json", json.dumps(json.loads(drawn.schema()), separators=(",", ":")))
    drawn.add_rows(drawn.rows)
    write("table.csv", drawn.table())
    asked, others = compact(drawn.questions(AT_ONCE)), compact(drawn.questions(AT_ONCE))
    batch, seen = drawn.draw.choice([1, 3, 64]), []
    for program in programs:
        remove("answers.journal")
        run(program, "init")
        replies = run(program, f"serve --batch {batch}", asked)
        seen.append((replies, read("answers.journal"), run(program, "audit"), run(program, "explain", others)))
    pairs = [(line, reply) for line, reply in zip(asked.splitlines(), seen[0][0].splitlines(), strict=True) if '"min"' in line]
    met = seen[0] == seen[1] and all(is_true(drawn, line, reply) for line, reply in pairs)
    return met, len(pairs), sum(reply.startswith('{"min"') for _, reply in pairs)


def main():
    programs, questions, seed = sys.argv[1:3], int(sys.argv[3]), int(sys.argv[4])
    wrong = rounds = asked = told = 0
    while asked < questions:
        met, more, answered = one_round(programs, seed + rounds)
        if not met:
            print(f"seed {seed + rounds}: something differs")
            wrong += 1
        rounds, asked, told = rounds + 1, asked + more, told + answered
    print(f"{asked} questions on minima over {rounds} tables, {told} answered; {wrong} wrong")
    return 1 if wrong else 0


if __name__ == "__main__":
    sys.exit(main())

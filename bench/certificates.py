#!/usr/bin/env python3
"""Has random denials explained, compares two programs, and changes what they say. bench/certificates.sh calls this.

    certificates.py PROGRAM PLAIN KEYS ROUNDS SEED

Works in the folder that it is called in. A round draws a small table and, of the KEYS, separated by commas, some that its schema states, has the program answer random questions over it, over more rows
in the end than in the beginning in some rounds, and then explain a hundred others. The plain program has to print the same lines, byte
for byte, demo/check_certificate.py has to take them, and the journal has to stay. Then one number of each certificate is changed by 1.
If the script takes that too, another way has to find it true: for a sum, both sides are equal over some tables of large random numbers;
for a maximum or a minimum, the greatest or the least list that is possible gives all answers, and of the named set its row alone reaches the
answer. The exit status is
1 if something differs, or if a change is taken that isn't true."""
import copy
import json
import os
import sys

from kept import KINDS, SUM, Draw, make_history, read, read_journal, run

sys.path.insert(0, os.path.join(os.path.dirname(os.path.abspath(__file__)), "..", "demo"))
import check_certificate as script  # noqa: E402

EXPLAINED = 100
TABLES = 3


class Protecting(Draw):
    """A draw in which the totals of three parts of the table stay open in most rounds, maybe of one that has no row yet."""

    def schema(self):
        schema = json.loads(super().schema())
        sums = [column["name"] for column in schema["columns"] if column["is"] == KINDS[SUM]]
        parts = self.draw.sample(range(self.rows // 3 + 2), 3) if sums and self.draw.random() < 0.8 else []
        schema["protect"] = [{"column": self.draw.choice(sums), "where": f"part = {part}"} for part in parts]
        return json.dumps(schema)


def compact(lines):
    """The lines without blanks between tokens, as the plain program reads them."""
    return "".join(json.dumps(json.loads(line), separators=(",", ":")) + "\n" for line in lines.splitlines())


def is_total(journal, target, asked, line, draw):
    """Whether the sets come to the target, each as often as the line says, over tables of random numbers."""
    for _ in range(TABLES):
        table = [draw.getrandbits(80) for _ in range(journal.rows)]
        sums = [number * sum(table[row] for row in journal.records[place].rows) for place, number in line["by"]]
        total = sum(sums) + line["asked"] * sum(table[row] for row in asked)
        own = line["share"] * table[line["own"]] if "own" in line else 0
        if total != line["times"] * sum(table[row] for row in target) + own:
            return False
    return True


def is_lone(journal, column, asked, line):
    """Whether some list gives all answers, and in each that does one of the rows has the answer of the set that is named, or the asker's own row."""
    pairs = {place: (record.answer, record.rows) for place, record in enumerate(journal.records) if record.column == column}
    # A record of a minimum has it negated.
    pairs["asked"] = -line["answer"] if "low" in line else line["answer"], asked
    rows = range(journal.rows)
    bounds = {row: min((answer for answer, chosen in pairs.values() if row in chosen), default=None) for row in rows}
    reached = {place: {row for row in chosen if bounds[row] == answer} for place, (answer, chosen) in pairs.items()}
    return all(reached.values()) and reached[line["pair"]] == {*line.get("rows", []), *(line[key] for key in ("row", "own") if key in line)}


def is_true(facts, journal, question, line, draw):
    column, asked = facts.question(question)
    if "answer" in line:
        return is_lone(journal, column, asked, line)
    target = {line["row"]} if "row" in line else facts.groups[line["group"]][1]
    return is_total(journal, target, asked, line, draw)


def numbers(line):
    """Each number of a certificate, as what holds it and its key or place there."""
    yield from ((line, key) for key, value in line.items() if isinstance(value, int))
    yield from ((term, place) for term in line.get("by", []) for place in range(2))
    for word in sorted(line.keys() & {"high", "low", "rows"}):
        yield from ((line[word], place) for place in range(len(line[word])))


def with_a_change(line, draw):
    line = copy.deepcopy(line)
    holder, key = draw.choice(list(numbers(line)))
    holder[key] += draw.choice([-1, 1])
    return line


class Round:
    """A history, and what both programs say of the same questions after it."""

    def __init__(self, program, plain, keys, seed):
        self.drawn = Protecting(keys, seed)
        make_history(program, self.drawn)
        self.questions = compact(self.drawn.questions(EXPLAINED))
        before = read("answers.journal")
        said = run(program, "explain", self.questions)
        self.alike = said == run(plain, "explain", self.questions) and before == read("answers.journal")
        self.lines = [json.loads(line) for line in said.splitlines()]
        self.facts, self.journal = script.Facts(), read_journal(before)

    def is_taken(self, question, line):
        try:
            return script.check_line(self.facts, question, line) == "certificate"
        except script.Wrong:
            return False

    def certificates(self):
        for question, line in zip(self.questions.encode().splitlines(), self.lines):
            if line["verdict"] == "unsafe" and "proof" not in line:
                yield question, line

    def tried(self):
        """How many certificates there are, and of those with a change, how many are taken; None if one isn't as it has to be."""
        count = taken = 0
        draw = self.drawn.draw
        for question, line in self.certificates():
            other = with_a_change(line, draw)
            is_taken = self.is_taken(question, other)
            if not self.is_taken(question, line) or is_taken and not is_true(self.facts, self.journal, question, other, draw):
                return None
            count, taken = count + 1, taken + is_taken
        return count, taken


def main():
    program, plain, keys, rounds, first = *sys.argv[1:3], sys.argv[3].split(","), int(sys.argv[4]), int(sys.argv[5])
    wrong = certificates = taken = groups = 0
    for seed in range(first, first + rounds):
        made = Round(program, plain, keys, seed)
        tried = made.tried()
        if not made.alike or tried is None:
            print(f"seed {seed}: {len(made.drawn.cells)} rows, {len(made.journal.records)} records: something differs")
            wrong += 1
            continue
        certificates, taken = certificates + tried[0], taken + tried[1]
        groups += sum("group" in line for line in made.lines)
    print(f"{rounds} histories, {certificates} certificates, {groups} of them for protected groups: all hold; of as many with a number changed,"
          f" {taken} still do; {wrong} wrong")
    return 1 if wrong else 0


if __name__ == "__main__":
    sys.exit(main())

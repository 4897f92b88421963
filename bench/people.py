#!/usr/bin/env python3
"""Asks about tables whose rows stand for several people, and compares two programs. bench/people.sh calls this.

    people.py PROGRAM PLAIN KEYS ROUNDS SEED

Works in the folder that it is called in. A round draws a small table with a column of counts and of the KEYS, separated by commas, some that its
schema states; it grows once or twice in some rounds, by people who may have an old row's cells. At each stage both programs answer the same
random questions over the same journal: replies and journals have to be the same, byte for byte. So do the lines of `explain` on a hundred others,
the report, and the verdicts of `simulate` on the questions with their replies, over the public part alone, one reply of which is changed in half of the
rounds. demo/check_certificate.py has to take each certificate, and one with a number changed only if it is true by another way, as
bench/certificates.py has it; demo/check_report.py has to take the report. `compact` has to keep what bench/kept.py works out. Before the rounds
both programs get schemas and tables that are no such ones, and have to say the same. The exit status is 1 if something differs."""
import copy
import json
import os
import subprocess
import sys

from certificates import Protecting, compact, is_true, script, with_a_change
from kept import KINDS, compacts_as_defined, read, read_journal, remove, run, write
from over_people import script as takes

EXPLAINED = 100
HEADER = "id,part,people,s0\n"
BAD_WORDS = {
    "fewest": [2, 3, 1000, 0, 1, 1001, -2, 2.0, "2", "", None, True, [2], 10**30],
    "askers": ["inside", "outside", "staff", "Inside", "", 1, None, True, ["inside"]],
}
GOOD = {"columns": [{"name": "id", "is": "number"}, {"name": "part", "is": "number"}, {"name": "people", "is": "count"}, {"name": "s0", "is": "sum"}]}


class Counted(Protecting):
    """A draw of a table with a column of counts, wherever it stands."""

    def __init__(self, keys, seed):
        super().__init__(keys, seed)
        self.counts, self.at = [], self.draw.randrange(3)
        most = self.draw.choice([2, 4, 1000, 10**12])
        self.sizes = [1, 1, 1, 2, 2, 3, most]

    def with_counts(self, line, count):
        return [*line[: self.at], count, *line[self.at :]]

    def schema(self):
        schema = json.loads(super().schema())
        schema["columns"] = self.with_counts(schema["columns"], {"name": "people", "is": "count"})
        return json.dumps(schema, separators=(",", ":"))

    def add_rows(self, count):
        super().add_rows(count)
        for cells in self.cells[-count:]:
            cells[1] = self.draw.randrange(cells[1] + 1)
            self.counts.append(self.draw.choice(self.sizes))

    def table(self):
        names = ["id", "part", *(f"s{place}" for place in range(len(self.kinds)))]
        lines = [self.with_counts(names, "people"), *(self.with_counts(line, count) for line, count in zip(self.cells, self.counts))]
        return "".join(",".join(map(str, line)) + "\n" for line in lines)

    def public_table(self):
        lines = [self.with_counts(["id", "part"], "people"), *(self.with_counts(line[:2], count) for line, count in zip(self.cells, self.counts))]
        return "".join(",".join(map(str, line)) + "\n" for line in lines)

    def questions(self, count):
        """Counts beside the others, and a few questions that are refused."""
        lines = super().questions(count).splitlines()
        for place in range(0, count, 5):
            asked = json.loads(lines[place])
            asked = self.draw.choice([{"ask": "count", "where": asked["where"]}, {**asked, "where": "people > 1"}, {**asked, "column": "people"}, {**asked, "where": "id < 0"}])
            lines[place] = json.dumps(asked)
        return compact("".join(line + "\n" for line in lines))


def run_of(program, words, given=""):
    """What a run sent, said and ended with."""
    done = subprocess.run([program, *words.split()], input=given, capture_output=True, text=True)
    return done.stdout, done.stderr, done.returncode


class Round:
    """What both programs do over one table as it grows."""

    def __init__(self, programs, keys, seed):
        self.programs, self.drawn = programs, Counted(keys, seed)
        self.faults, self.transcript, self.answered = [], [], 0

    def need(self, holds, fault):
        if not holds:
            self.faults.append(fault)

    def both(self, words, given=""):
        """What the first program did, if the other one does the same over the same journal and leaves it the same."""
        before = read("answers.journal")
        done, after = run_of(self.programs[0], words, given), read("answers.journal")
        write_bytes("answers.journal", before)
        other = run_of(self.programs[1], words, given)
        self.need(done == other and after == read("answers.journal"), f"{words}: something differs")
        write_bytes("answers.journal", after)
        return done[0]

    def stage(self):
        lines = self.drawn.questions(self.drawn.draw.choice([10, 40, 120]))
        replies = self.both(f"serve --batch {self.drawn.draw.choice([1, 3, 64])}", lines)
        self.transcript.append((lines, replies))
        self.answered += len(replies.splitlines())

    def grow(self):
        self.drawn.add_rows(self.drawn.draw.randint(1, 9))
        write("table.csv", self.drawn.table())
        run(self.programs[0], "grow")

    def history(self):
        for name in ("answers.journal", "answers.spare"):
            remove(name)
        write("schema.json", self.drawn.schema())
        self.drawn.add_rows(self.drawn.rows)
        write("table.csv", self.drawn.table())
        run(self.programs[0], "init")
        self.stage()
        for _ in range(self.drawn.draw.choice([0, 0, 1, 2])):
            self.grow()
            self.stage()

    def certificates(self):
        """How many there are, and how many are taken with a number changed."""
        questions = self.drawn.questions(EXPLAINED)
        lines = [json.loads(line) for line in self.both("explain", questions).splitlines()]
        facts, journal = script.Facts(), read_journal(read("answers.journal"))
        count = taken = 0
        for question, line in zip(questions.encode().splitlines(), lines):
            if line["verdict"] != "unsafe" or "proof" in line:
                continue
            other = with_a_change(line, self.drawn.draw)
            is_taken = self.takes(facts, question, other)
            self.need(self.takes(facts, question, line), f"a certificate isn't taken: {line}")
            self.need(not is_taken or is_true(facts, journal, question, other, self.drawn.draw), f"a certificate that isn't true is taken: {other}")
            count, taken = count + 1, taken + is_taken
        return count, taken

    def takes(self, facts, question, line):
        try:
            return script.check_line(facts, question, line) == "certificate"
        except script.Wrong:
            return False

    def report(self):
        self.need(takes("check_report.py", self.both("audit")), "the report isn't taken")

    def compacts(self):
        met, _ = compacts_as_defined(self.programs[0])
        self.need(met, "compact: another spare than is due")

    def simulates(self):
        """The last stage's questions with their replies, after the history before it or, of a table that didn't grow, after none."""
        write("table.csv", self.drawn.public_table())
        lines, replies = (text.splitlines() for text in self.transcript[-1])
        if len(self.transcript) == 1:
            remove("answers.journal")
        if replies and self.drawn.draw.random() < 0.5:
            place = self.drawn.draw.randrange(len(replies))
            replies[place] = self.drawn.draw.choice(['{"sum":1}', '{"num":1,"den":1}', '{"num":2,"den":3}', '{"max":0}', '{"count":1}', '{"denied":"unsafe"}', "x"])
        given = "".join(f"{line}\n{reply}\n" for line, reply in zip(lines, replies))
        ends = [run_of(program, "simulate", given) for program in self.programs]
        self.need(ends[0] == ends[1], "simulate: something differs")


def write_bytes(name, data):
    with open(name, "wb") as file:
        file.write(data)


def changed(place, **keys):
    """The good schema with these keys of a column changed."""
    schema = copy.deepcopy(GOOD)
    schema["columns"][place].update(keys)
    return schema


def bad_files():
    """Schemas and tables of which some aren't to be taken, as pairs of both."""
    rows = "1,1,1,5\n2,1,3,5\n"
    yield from ((changed(2, **{"is": word}), HEADER + rows) for word in ("people", "Count", "counts", "number"))
    yield changed(1, **{"is": "count"}), HEADER + rows
    for cell in (" 3 ", "+3", "007", "", " ", "3.0", "three", "1e3", "0", "-1", "+0", "1000000000000", "1000000000001", "99999999999999999999999"):
        yield GOOD, HEADER + "1,1,1,5\n" + f"2,1,{cell},5\n"
        yield GOOD, HEADER + f"1,1,{cell},5\n" + "2,1,x,5\n"
    yield GOOD, HEADER.replace(",people", "") + "1,1,5\n"
    yield GOOD, HEADER + "1,1,5\n"
    yield GOOD, HEADER + "1,1,2,5\n1,1,2,5\n"
    yield {"columns": [GOOD["columns"][2], GOOD["columns"][3]]}, "people,s0\n1,5\n"
    for key, words in BAD_WORDS.items():
        yield from (({**GOOD, key: word}, HEADER + rows) for word in words)
    for column, where in (("people", "all"), ("s0", "people > 1"), ("s0", "people = 1 or all"), ("s0", "part = 1")):
        yield {**GOOD, "protect": [{"column": column, "where": where}]}, HEADER + rows


def say_the_same(programs):
    """How many bad files there were, and of how many the programs don't say the same."""
    wrong, tried = 0, list(bad_files())
    for schema, table in tried:
        write("schema.json", json.dumps(schema, separators=(",", ":")))
        write("table.csv", table)
        ends = []
        for program in programs:
            remove("answers.journal")
            made = run_of(program, "init")
            ends.append((made, run_of(program, "serve", '{"ask":"count","where":"all"}\n') if made[2] == 0 else None))
        if ends[0] != ends[1]:
            print(f"{json.dumps(schema)} with {table!r}: {ends[0]} and {ends[1]}")
            wrong += 1
    return len(tried), wrong


def main():
    programs, keys, rounds, first = [os.path.abspath(program) for program in sys.argv[1:3]], sys.argv[3].split(","), int(sys.argv[4]), int(sys.argv[5])
    files, wrong = say_the_same(programs)
    asked = certificates = taken = 0
    for seed in range(first, first + rounds):
        made = Round(programs, keys, seed)
        made.history()
        count, still = made.certificates()
        made.report()
        made.compacts()
        made.simulates()
        for fault in made.faults[:1]:
            print(f"seed {seed}: {fault}")
        wrong += bool(made.faults)
        asked, certificates, taken = asked + made.answered, certificates + count, taken + still
    print(f"{files} schemas and tables, {rounds} histories, {asked} questions answered alike, {certificates} certificates: all hold; of as many with a number"
          f" changed, {taken} still do; {wrong} wrong")
    return 1 if wrong else 0


if __name__ == "__main__":
    sys.exit(main())

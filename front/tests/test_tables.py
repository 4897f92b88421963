"""From the CSV as R writes it to thirty answered questions each, over five real tables.

Every answer that ask.py prints is compared with a number worked out here from the file as R wrote it, by the csv module and fractions;
nothing that prepare.py wrote is read for it. AUDITOR=.. /usr/bin/python3 -m unittest test_tables
"""

import collections
import csv
import fractions
import re
import shutil
import subprocess
import unittest

from table_kit import AUDITOR, FRONT, TableTest, needs_program, said_by

import ask

TABLES = FRONT / "tests" / "tables"
ENOUGH = 30
Condition = collections.namedtuple("Condition", "text holds")


def number(cell):
    """A cell of R as a fraction; a decimal comma is a point."""
    return fractions.Fraction(cell.replace(",", "."))


def printed(line):
    """The number that ask.py prints, or None for a denial."""
    exact = re.search(r"\(exactly (-?\d+)/(\d+)\)", line)
    if exact:
        return fractions.Fraction(int(exact[1]), int(exact[2]))
    found = re.fullmatch(r"-?\d+(?:\.\d+)?", line.split(" ")[0])
    return fractions.Fraction(found[0]) if found else None


ALL = Condition("all", lambda row: True)


def equal(name, title, values, quote="'"):
    """A condition for each value that the column of that title may have."""
    return [
        Condition(f"{name} = {quote}{value}{quote}", lambda row, value=value: row[title] == value) for value in values
    ]


def at_least(name, title, numbers):
    """A condition for each number: the column's is as large. Rounded down, a number is as large as a whole one if it was before."""
    return [Condition(f"{name} >= {least}", lambda row, least=least: number(row[title]) >= least) for least in numbers]


def both(first, second):
    """A condition for each pair."""
    return [
        Condition(f"{a.text} and {b.text}", lambda row, a=a, b=b: a.holds(row) and b.holds(row))
        for a in first
        for b in second
    ]


def questions_on(conditions, *columns):
    """For each condition a question on each (ask, column, title)."""
    return [
        (kind, column, condition, lambda row, title=title: number(row[title]))
        for condition in conditions
        for kind, column, title in columns
    ]


@needs_program
class Round(TableTest):
    """A table is prepared, its journal made and its questions asked; the file is read apart from that."""

    def rows(self, name, separator=",", row_names=False):
        """The rows of a file of R by title."""
        with open(TABLES / name, encoding="utf-8", newline="") as file:
            header, *rows = csv.reader(file, delimiter=separator)
        header = [""] * row_names + header
        return [dict(zip(header, row)) for row in rows]

    def prepared(self, name, *words):
        """What make says of the file of that name with these choices."""
        self.file = self.folder / name
        self.choices = self.file.with_suffix(".choices.json")
        shutil.copy(TABLES / name, self.file)
        for status, said in (self.prepare("look", self.file), self.choose("protect=none", "askers=outside", "range=none", *words), self.make()):
            self.assertEqual(status, 0, said)
        self.assertNotIn("not tried with the program", said)
        return said

    def asked(self, folder, rows, questions):
        """Asks each (ask, column, condition, number of a row) in the folder; how many were answered, each of them rightly."""
        subprocess.run([AUDITOR, "init"], cwd=folder, check=True)
        lines = [f"{kind} {column} where {condition.text}" for kind, column, condition, _ in questions]
        _, said = said_by(ask.main, [folder, *lines])
        replies = said.splitlines()
        self.assertEqual(len(replies), len(lines), said)
        answered = 0
        for line, reply, (kind, _, condition, number_of) in zip(lines, replies, questions):
            found = printed(reply)
            if found is None:
                self.assertIn("not answered: Some answer to this question", reply, line)
                continue
            answered += 1
            numbers = [number_of(row) for row in rows if condition.holds(row)]
            due = {"sum": sum, "max": max, "avg": lambda all_of: sum(all_of) / fractions.Fraction(len(all_of))}[kind](
                numbers
            )
            self.assertEqual(found, due, line)
        return answered

    def test_salaries(self):
        said = self.prepared(
            "salaries.csv", "salary=sum", "yrs_service=max", "yrs_since_phd=number", "column_1=leave out", "others=text"
        )
        self.assertIn("'': left out", said)
        conditions = [ALL, *equal("rank", "rank", ("Prof", "AssocProf", "AsstProf"))]
        conditions += both(equal("sex", "sex", ("Male", "Female")), equal("discipline", "discipline", "AB"))
        conditions += at_least("yrs_since_phd", "yrs.since.phd", range(5, 40, 5))
        questions = questions_on(
            conditions, ("sum", "salary", "salary"), ("avg", "salary", "salary"), ("max", "yrs_service", "yrs.service")
        )
        self.assertGreaterEqual(self.asked(self.out, self.rows("salaries.csv"), questions), ENOUGH)

    def test_lung(self):
        public = [f"{name}=number" for name in ("inst", "age", "sex", "status", "ph_ecog")]
        said = self.prepared(
            "lung.tsv",
            "time=sum",
            "wt_loss=sum",
            *public,
            "inst.missing=mark",
            "others=leave out",
            "missing=drop the row",
        )
        self.assertIn("dropped 15 rows of 228, for what they lack: 'wt.loss' 14, 'ph.ecog' 1", said)
        rows = [
            row for row in self.rows("lung.tsv", "\t", row_names=True) if "NA" not in (row["wt.loss"], row["ph.ecog"])
        ]
        self.assertEqual(len(rows), 213)
        conditions = [
            ALL,
            *at_least("age", "age", range(42, 78, 4)),
            *both(equal("sex", "sex", "12", ""), equal("status", "status", "12", "")),
        ]
        conditions += [
            Condition("not (inst_known = 1)", lambda row: row["inst"] == "NA"),
            Condition("inst < 10 and inst_known = 1", lambda row: row["inst"] != "NA" and int(row["inst"]) < 10),
            Condition("ph_ecog in (0, 1)", lambda row: row["ph.ecog"] in "01"),
        ]
        questions = questions_on(conditions, ("sum", "time", "time"), ("avg", "wt_loss", "wt.loss"))
        self.assertGreaterEqual(self.asked(self.out, rows, questions), ENOUGH)

    def test_students(self):
        secret, age = ("Pulse=sum", "Height=sum", "NW_Hnd=max"), ("Age=number", "Age.decimals=0", "Age.rounded=down")
        public = ("Sex=text", "Exer=text", "Exer.missing=keep", "Smoke=text")
        said = self.prepared("students.csv", *secret, *age, *public, "others=leave out", "missing=drop the row")
        self.assertIn("'Height': secret sum, times 100, so in steps of 0.01", said)
        lacking = ("Pulse", "Height", "NW.Hnd", "Sex", "Smoke")
        rows = [row for row in self.rows("students.csv", ";") if "NA" not in [row[title] for title in lacking]]
        light = Condition("Smoke != 'Heavy'", lambda row: row["Smoke"] != "Heavy")
        conditions = [
            ALL,
            *equal("Exer", "Exer", ("None", "Some", "Freq")),
            *both(equal("Sex", "Sex", ("Male", "Female")), [light]),
        ]
        conditions += at_least("Age", "Age", range(17, 26))
        questions = questions_on(
            conditions, ("sum", "Pulse", "Pulse"), ("avg", "Height", "Height"), ("max", "NW_Hnd", "NW.Hnd")
        )
        self.assertGreaterEqual(self.asked(self.out, rows, questions), ENOUGH)

    def test_transplants(self):
        public = [f"{name}=number" for name in ("accept_dt", "age", "surgery", "transplant", "fustat")]
        said = self.prepared(
            "transplants.csv", "futime=sum", *public, "age.decimals=0", "age.rounded=down", "others=leave out"
        )
        self.assertIn("'accept.dt': public number, named accept_dt, as a number, 20170131 for 31 January 2017", said)
        conditions = [
            Condition(f"accept_dt < {year}{month}01", lambda row, day=f"{year}-{month}-01": row["accept.dt"] < day)
            for year in range(1969, 1974)
            for month in ("01", "07")
        ]
        conditions += [*at_least("age", "age", range(20, 60, 4)), *equal("surgery", "surgery", "01", "")]
        conditions += both(equal("transplant", "transplant", "01", ""), equal("fustat", "fustat", "01", ""))
        questions = questions_on(conditions, ("sum", "futime", "futime"), ("avg", "futime", "futime"))
        self.assertGreaterEqual(self.asked(self.out, self.rows("transplants.csv"), questions), ENOUGH)

    def test_titanic(self):
        public = [f"{name}=text" for name in ("survived", "sex", "passengerClass")]
        said = self.prepared(
            "titanic.csv", "age=sum", *public, "others=leave out", "missing=drop the row", "split by=passengerClass"
        )
        self.assertIn("dropped 263 rows of 1,309, for what they lack: 'age' 263", said)
        every = [row for row in self.rows("titanic.csv") if row["age"] != "NA"]
        self.assertEqual(len(every), 1046)
        lost = Condition("not survived = 'yes'", lambda row: row["survived"] == "no")
        conditions = both(equal("survived", "survived", ("yes", "no")), equal("sex", "sex", ("male", "female")))
        conditions += [ALL, lost, *equal("sex", "sex", ["male"])]
        questions, answered = questions_on(conditions, ("sum", "age", "age"), ("avg", "age", "age")), 0
        for folder, cabin in (("c_1st", "1st"), ("c_2nd", "2nd"), ("c_3rd", "3rd")):
            part = [row for row in every if row["passengerClass"] == cabin]
            answered += self.asked(self.out / folder, part, questions)
        self.assertGreaterEqual(answered, ENOUGH)


if __name__ == "__main__":
    unittest.main()

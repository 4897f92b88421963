"""Tables with which prepare.py could only be given up: each reaches a first answer, or is told in one sentence why it doesn't.

AUDITOR=.. /usr/bin/python3 -m unittest test_stuck
"""

import json
import random
import subprocess
import unittest

from table_kit import AUDITOR, TableTest, needs_program, said_by

import ask

NO_SPLIT = "no public column, nor two together, cuts them into parts of 20 to 4,096"


class Stuck(TableTest):
    def setUp(self):
        super().setUp()
        self.draw = random.Random(11)

    def one_sentence(self, said):
        """What is said of a fault, without the table of what would do."""
        lines = [line for line in said.splitlines() if line.startswith("prepare: ")]
        self.assertEqual((len(lines), said.splitlines()[-1] in (lines[0], "Rows are counted as in a spreadsheet: the header is row 1")), (1, True), said)
        return lines[0]

    def visits(self, part=False):
        """20,190 people with four public columns of yes and no, and how often each saw a doctor; with a number of a part for each, if wanted."""
        titles = ["mdvis", "idp", "hlthg", "hlthf", "hlthp"] + ["part"] * part
        rows = [[self.draw.randrange(40), *(self.draw.randrange(2) for _ in range(4)), *[place % 21 + 1] * part] for place in range(20_190)]
        return "\n".join(",".join(map(str, row)) for row in [titles, *rows]) + "\n", rows

    KINDS = ("mdvis=sum", "idp=number", "hlthg=number", "hlthf=number", "hlthp=number")

    def test_a_large_table_of_few_public_values_is_told_why_and_what_to_do(self):
        text, _ = self.visits()
        said = self.one_sentence(self.refused(text, *self.KINDS))
        self.assertIn("20,190 rows are left, a table has at most 4,096", said)
        self.assertIn(NO_SPLIT, said)
        self.assertIn("numbers the rows from 1 to 20", said)

    @needs_program
    def test_it_reaches_its_first_answer_by_a_column_of_parts(self):
        text, rows = self.visits(part=True)
        self.made(text, *self.KINDS, "part=number", "split by=part")
        parts = sorted(path for path in self.out.iterdir())
        self.assertEqual(len(parts), 21)
        subprocess.run([AUDITOR, "init"], cwd=self.out / "c_7", check=True)
        status, said = said_by(ask.main, [self.out / "c_7", "sum mdvis", "count where hlthg = 1"])
        mine = [row for row in rows if row[5] == 7]
        self.assertEqual((status, said.split()), (0, [str(sum(row[0] for row in mine)), str(sum(row[2] for row in mine))]))

    def ratios(self, decimals=16):
        """700 loans: a ratio with so many decimals, whether it was denied, and two public columns."""
        rows = [f"{self.draw.randrange(10**decimals) / 10**decimals:.{decimals}f},{self.draw.choice(['no', 'yes'])},{self.draw.randrange(1, 7)},"
                f"{self.draw.choice(['no', 'yes'])}" for _ in range(700)]
        return "pirat,deny,chist,single\n" + "\n".join(rows) + "\n"

    def test_ratios_of_sixteen_decimals_are_told_why_in_one_sentence(self):
        kinds = ("deny=text", "chist=number", "single=text")
        said = self.one_sentence(self.refused(self.ratios(), "pirat=sum", *kinds))
        self.assertIn("'pirat' has numbers of 16 decimals, and at most 12 are kept. A secret number is never rounded: round it in the file itself", said)
        self.choices.unlink()
        said = self.one_sentence(self.refused(self.ratios(), "pirat=sum", "pirat.decimals=12", *kinds))
        self.assertRegex(said, r"row 2, column 'pirat': '0\.\d{16}' has more than 12 decimals, and nothing is rounded; so have 69\d more cells of that column. A secret")
        self.choices.unlink()
        said = self.one_sentence(self.refused(self.ratios(), "pirat=leave out", "deny=sum", "chist=number", "single=text"))
        self.assertIn("A yes or no that is to be asked for its number has to be 1 or 0 in the file", said)

    @needs_program
    def test_rounded_in_the_file_they_reach_their_first_answer(self):
        text = self.ratios(4)
        self.made(text, "pirat=sum", "deny=text", "chist=number", "single=text")
        subprocess.run([AUDITOR, "init"], cwd=self.out, check=True)
        status, said = said_by(ask.main, [self.out, "avg pirat by deny"])
        self.assertEqual((status, [line.split(":")[0] for line in said.splitlines()]), (0, ["no", "yes"]), said)

    AGES = "age,team,pay\n" + "".join(f"{20 + place}.{place % 10},{'AB'[place % 2]},{1000 + place * place}\n" for place in range(50))

    @needs_program
    def test_a_rounded_number_loses_the_factor_in_its_name(self):
        self.look(self.AGES)
        said = self.choose("protect=none", "range=none", "age=number", "team=text", "pay=sum", "split by=age_x10")[1]
        self.assertIn("age is named age_x10: its numbers are kept times 10", said)
        said = self.choose("age.decimals=0", "age.rounded=down")[1]
        self.assertIn("age_x10 is named age: its numbers are kept as they are, and conditions compare them so", said)
        self.assertEqual((self.column("age")["decimals"], self.chosen()["split by"]), (0, ["age"]))
        self.choose("split by=none")
        status, said = self.make()
        self.assertEqual((status, "CAREFUL: age" in said, "'age': public number" in said), (0, False, True), said)
        subprocess.run([AUDITOR, "init"], cwd=self.out, check=True)
        self.assertEqual(said_by(ask.main, [self.out, "count where age >= 60"]), (0, "10\n"))

    def test_a_name_that_says_a_factor_which_isnt_there_is_pointed_out(self):
        self.look(self.AGES)
        self.choose("protect=none", "range=none", "age=number", "age.decimals=0", "age.rounded=down", "team=text", "pay=sum")
        text = self.choices.read_text().replace('"name": "age"', '"name": "age_x10"')
        self.choices.write_text(text)
        status, said = self.make()
        self.assertEqual(status, 0, said)
        self.assertIn("CAREFUL: age_x10 says in its name that its numbers are kept times 10, and they are kept as they are", said)
        self.assertIn("Name it age\n", said)

    def test_a_title_that_has_a_factor_itself_keeps_it(self):
        said = self.made(self.AGES.replace("age,", "age_x10,").replace(".", ""), "age_x10=number", "team=text", "pay=sum")
        self.assertNotIn("CAREFUL: age_x10 says", said)
        self.assertIn("age_x10", json.loads((self.out / "schema.json").read_text())["columns"][0]["name"])


if __name__ == "__main__":
    unittest.main()

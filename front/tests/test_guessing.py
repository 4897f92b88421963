"""The line that `look` ends with: it fills in all that is open, and `choose` and `make` take it as it stands. No program is needed.

/usr/bin/python3 -m unittest test_guessing
"""

import os
import shlex
import unittest
from unittest import mock

from table_kit import TableTest

PEOPLE = "name,age,department,salary\n" + "".join(
    f"{name},{age},{team},{pay}\n"
    for name, age, team, pay in [("Ann", 34, "IT", "41200"), ("Bob", 45, "IT", "52300.50"), ("Cat", 29, "HR", "38900"), ("Dan", 51, "HR", "60150"),
                                 ("Eve", 38, "HR", "47500")]
)


class Guessing(TableTest):
    def setUp(self):
        super().setUp()
        self.enterContext(mock.patch.dict(os.environ, {"PATH": ""}))
        os.environ.pop("AUDITOR", None)

    def guess(self, text):
        """The arguments of the line for a file with this text."""
        self.choices.unlink(missing_ok=True)
        self.file.write_text(text, encoding="utf-8")
        status, said = self.prepare("look", self.file)
        self.assertEqual(status, 0, said)
        (line,) = [line for line in said.splitlines() if line.startswith("  ") and " choose " in line]
        words = shlex.split(line)
        self.assertEqual(words[1:3], ["choose", str(self.choices)])
        return words[3:]

    def test_the_line_fills_in_all_that_is_open(self):
        words = self.guess(PEOPLE)
        self.assertEqual(words, ["name=leave out", "age=number", "department=text", "salary=sum", "range=0 to none", "protect=none", "askers=inside"])
        self.assertIn("nothing is open any more", self.choose(*words)[1])
        self.assertEqual(self.make()[0], 0)

    def test_nothing_is_chosen_by_the_guess_itself(self):
        self.guess(PEOPLE)
        self.assertEqual(self.make()[0], 1)

    def test_numbers_below_0_get_no_range_from_0_on(self):
        words = self.guess("team,profit\nA,-5\nA,7\nB,9\nB,11\n")
        self.assertEqual(words[:4], ["team=text", "profit=sum", "profit.range=none", "range=0 to none"])
        self.assertIn("nothing is open any more", self.choose(*words)[1])
        self.assertEqual(self.make()[0], 0)

    def test_gaps_and_two_readings_are_closed_too(self):
        words = self.guess("team;pay;bonus\nA;1,250;5\nA;7,500;NA\nB;1,125;9\nB;3,125;12\n")
        self.assertEqual([words[1], words[3]], ["pay=leave out", "missing=drop the row"])
        self.assertIn("nothing is open any more", self.choose(*words)[1])
        self.assertEqual(self.make()[0], 0)

    def test_a_text_is_public_if_nothing_else_is(self):
        self.assertEqual(self.guess("team,pay\nA,5\nB,7\n")[:2], ["team=text", "pay=sum"])

    def test_of_more_people_than_rows_a_row_stands_for_several(self):
        words = self.guess("team,pay\n" + "".join(f"t{row % 5},{row}\n" for row in range(70_000)))
        self.assertIn("count=people", words)
        self.choose(*words)
        self.assertEqual(self.make()[0], 0)

    def test_look_says_a_line_a_choice_and_the_rest_by_more(self):
        self.file.write_text(PEOPLE, encoding="utf-8")
        said = self.prepare("look", self.file)[1]
        self.assertLess(len(said.splitlines()), 20)
        self.assertNotIn("conditions by chance", said)
        self.assertIn("conditions by chance", self.prepare("look", "--more")[1])


if __name__ == "__main__":
    unittest.main()

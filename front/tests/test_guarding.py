"""Who asks, and of how few people what they have is guarded: what prepare.py asks, writes and says. No program reads the tables."""

import json
import os
import unittest
from unittest import mock

from lines_kit import LinesTest
from planning.columns import Columns
from planning.wanted import Reader
from table_kit import PLAIN, TableTest

TEXT = "team,pay\nA,1\nA,2\nB,4\nB,5\nC,9\n"
KINDS = ("team=text", "pay=sum")


class Guarding(TableTest):
    def setUp(self):
        super().setUp()
        self.enterContext(mock.patch.dict(os.environ, {"PATH": ""}))
        os.environ.pop("AUDITOR", None)

    def looked_at(self):
        """What `look` says of a file; who asks is open then."""
        self.file.write_text(TEXT, encoding="utf-8")
        return self.prepare("look", self.file)[1]

    def schema(self):
        return json.loads((self.out / "schema.json").read_text(encoding="utf-8"))

    def test_who_asks_is_a_choice_that_make_waits_for(self):
        self.assertIn("\n  askers          inside if people in the table may ask", self.looked_at())
        said = self.prepare("look", "--more")[1]
        self.assertIn("askers=inside if people in the table may ask too", said)
        self.assertIn("85 of 100 in place of 96", said)
        chosen = [word for word in PLAIN if word != "askers=outside"]
        self.assertIn("still open: askers", self.choose(*chosen, *KINDS)[1])
        self.assertEqual(self.make(), (1, "prepare: still to be chosen:\naskers\n"))
        self.assertEqual(self.choose("askers=outside")[0], 0)
        self.assertEqual(self.make()[0], 0)
        self.assertEqual(set(self.schema()), {"columns"})

    def test_a_terminal_is_asked_with_what_it_costs(self):
        self.looked_at()
        self.choose(*(word for word in PLAIN if word != "askers=outside"), *KINDS)
        asked = []
        with mock.patch("builtins.input", side_effect=lambda words: asked.append(words) or ["staff", "inside"][len(asked) - 1]):
            said = self.choose()[1]
        self.assertIn("intervals for 77 in place of 84", asked[0])
        self.assertIn("askers can't be", said)
        self.assertEqual((len(asked), self.chosen()["askers"]), (2, "inside"))

    def test_both_are_written_and_said(self):
        said = self.made(TEXT, *KINDS, "askers=inside", "fewest=3")
        self.assertEqual({key: self.schema()[key] for key in ("askers", "fewest")}, {"askers": "inside", "fewest": 3})
        self.assertIn("askers inside: nobody who knows her own number learns another one's", said)
        self.assertIn("fewest 3: what fewer people than that have is guarded", said)
        self.assertNotIn("A sum over two people tells each of them", said)

    def test_outside_it_says_what_two_people_tell_each_other(self):
        said = self.made(TEXT, *KINDS)
        self.assertIn("A sum over two people tells each of them the other's number. If people in the table may ask, choose askers=inside", said)

    def test_other_words_and_numbers_are_refused(self):
        self.assertIn("askers can't be", self.refused(TEXT, *KINDS, "askers=staff"))
        for number in (0, 1, 1001):
            self.choices.unlink(missing_ok=True)
            self.assertIn(f"\"fewest\" can't be {number}: it is 2 to 1,000", self.refused(TEXT, *KINDS, f"fewest={number}"))
        self.choices.unlink()
        self.assertIn("fewest can't be", self.refused(TEXT, *KINDS, "fewest=2.0"))

    def test_a_file_of_choices_from_before_is_as_it_was(self):
        self.look(TEXT)
        self.choose(*PLAIN, *KINDS)
        chosen = {key: value for key, value in self.chosen().items() if key not in ("askers", "fewest")}
        self.choices.write_text(json.dumps(chosen), encoding="utf-8")
        self.assertEqual(self.make()[0], 0)
        self.assertEqual(set(self.schema()), {"columns"})


class Weighing(unittest.TestCase):
    def test_a_wanted_question_weighs_its_people(self):
        schema = {"columns": [{"name": "team", "is": "text"}, {"name": "people", "is": "count"}, {"name": "pay", "is": "sum"}]}
        columns = Columns(json.dumps(schema), b"team,people\nA,30\nB,2\n")
        for equal, due in ((False, [32, 30]), (True, [1, 1])):
            reader = Reader(columns, equal)
            reader.read("sum pay\nsum pay where team = 'A'\n")
            self.assertEqual([(question.size, question.weight) for question in reader.questions], list(zip([2, 1], due)))


class GuardedLines(LinesTest):
    def test_lines_make_and_check_say_how_many_rows_stand_for_few(self):
        self.chosen_for(TEXT, *KINDS, "fewest=3")
        self.assertIn("of fewer than 3", self.prepare("lines", self.file, self.choices)[1].splitlines()[0])
        self.assertIn("of fewer than 4", self.prepare("lines", self.file, self.choices, "askers=inside")[1].splitlines()[0])
        said = self.make()[1]
        self.assertIn("5 people in 3 rows: 1 of one person, 2 of two, 0 of three or more, 3 of fewer than 3\n", said)
        self.assertIn("A row of fewer than 3 people is protected. What is told of a row of as many or more fixes nobody's number", said)
        self.assertIn("3 of fewer than 3: they are those of the 5 people", self.prepare("check", self.file, self.choices, self.out / "table.csv")[1])

    def test_with_askers_inside_a_row_of_two_is_one_of_few(self):
        said = self.condensed(TEXT, *KINDS, "askers=inside")
        self.assertIn("0 of three or more, 3 of fewer than 3\n", said)

    def test_without_both_nothing_more_is_said(self):
        self.assertNotIn("fewer than", self.condensed(TEXT, *KINDS).split("Of the")[0])


if __name__ == "__main__":
    unittest.main()

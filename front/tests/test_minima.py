"""A column of minima: asked by the clients for Python, the terminal and R over the real door and program, and made by prepare.py.

Start: AUDITOR=/path/of/the/program /usr/bin/python3 -m unittest -v test_minima. Without R its part is skipped.
"""
import collections
import json
import random
import shutil
import unittest
import urllib.error
import urllib.request

import staff
from table_kit import TableTest
from test_clients import NO_R, auditor, in_r, missing, typed
from test_page import PageCase

from asking.questions import Unclear, parse
from nearing.columns import Minima, read_column
from nearing.ranges import Range, shown_by
from preparing.faults import Fault

COLUMNS = {"ward": "text", "age": "number", "stay": "min", "cost": "sum"}
KINDS = dict(COLUMNS)
NOTES = {"columns": {"stay": {"unit": "days"}}}
Stay = collections.namedtuple("Stay", COLUMNS)


def stays(seed, wards=("North", "South", "West")):
    """60 stays, of which none is alone in its ward with its length."""
    draw = random.Random(seed)
    return [Stay(draw.choice(wards), 20 + place, draw.randrange(-2, 9), draw.randrange(100, 900)) for place in range(60)]


def least(rows, ward=None):
    return min(row.stay for row in rows if ward in (None, row.ward))


class OverTheProgram(unittest.TestCase):
    """One table behind a door."""

    @classmethod
    def setUpClass(cls):
        cls.rows = stays(3)
        cls.office = staff.Office({"": (COLUMNS, cls.rows, 2, NOTES)})
        cls.addClassCleanup(cls.office.close)
        cls.url = cls.office.url
        cls.table = cls.office.ready(lambda: auditor.connect(cls.url))
        cls.addClassCleanup(cls.table.door.close)

    def test_the_clients_tell_the_least_number(self):
        self.assertEqual(self.table.min("stay"), least(self.rows))
        for group in self.table.groups("stay", "ward", kind="min"):
            self.assertEqual(group.answer, least(self.rows, group.value))
        with self.assertRaises(auditor.Refused):
            self.table.max("stay")
        with self.assertRaises(auditor.Refused):
            self.table.min("cost")
        self.assertTrue(self.office.simulate())

    def test_one_person_s_number_is_denied_and_explained(self):
        self.assertIsInstance(self.table.min("stay", "age = 20"), auditor.Denied)
        why = self.table.why("min", "stay", "age = 20")
        self.assertIn("row 0 would be the only one", why.sentence)
        self.assertEqual(why.line["low"][0], why.line["answer"])

    def test_a_terminal_tells_it_with_its_unit(self):
        said, _, status = typed(self.url, "min stay", "least stay where age >= 30", "minimum stay", "columns")
        self.assertEqual(status, 0, said)
        due = [min(row.stay for row in self.rows if row.age >= age) for age in (20, 30, 20)]
        self.assertEqual(said[:3], [f"{number} days" for number in due])
        self.assertIn("secret, to be asked for min", "\n".join(said))

    def test_a_question_of_another_kind_gets_a_sentence(self):
        self.assertEqual(parse("least stay", KINDS).ask, "min")
        for text, words in (("max stay", "stay is kept for min"), ("min cost", "cost is kept for sum and avg"), ("median stay", "median can't be asked")):
            with self.subTest(text), self.assertRaises(Unclear) as unclear:
                parse(text, KINDS)
            self.assertIn(words, str(unclear.exception))

    @missing(not shutil.which("Rscript"), NO_R)
    def test_r_tells_it(self):
        self.assertEqual(in_r(f'cat(as.numeric(auditor_min("{self.url}", "stay")))'), [str(least(self.rows))])

    def test_the_door_says_and_keeps_what_the_program_does(self):
        line = json.dumps({"ask": "min", "column": "stay", "where": "all"}).encode()
        request = urllib.request.Request(f"{self.url}/ask", data=line, headers={"Content-Type": "application/json"})
        with urllib.request.urlopen(request) as response:
            self.assertEqual(json.loads(response.read()), {"min": least(self.rows)})


class OverParts(unittest.TestCase):
    """Two tables as parts of one."""

    def test_the_least_is_that_of_the_least_part(self):
        parts = {name: stays(seed, ("North", "South")) for name, seed in (("one", 4), ("two", 5))}
        office = staff.Office({name: (COLUMNS, rows, 2, NOTES) for name, rows in parts.items()})
        self.addCleanup(office.close)
        table = office.ready(lambda: auditor.connect(office.url))
        self.assertEqual(table.min("stay"), min(map(least, parts.values())))
        self.assertEqual(table.min("stay", "ward = 'South'"), min(least(rows, "South") for rows in parts.values()))


class OnThePage(PageCase):
    """The same in a browser."""

    @classmethod
    def setUpClass(cls):
        super().setUpClass()
        cls.rows = stays(6)
        cls.office = staff.Office({"": (COLUMNS, cls.rows, 2, NOTES)}, "--report-every", "0.5")
        cls.addClassCleanup(cls.office.close)
        cls.office.ready(lambda: cls.office.get("health"))

    def setUp(self):
        self.browser.open(self.office.url)

    def least_is_chosen(self):
        self.browser.click("#kinds input[value=min]")
        self.assertEqual([one.get_attribute("value") for one in self.browser.all("#column option")], ["stay"])

    def reported(self):
        """Whether there is a report over an answer."""
        try:
            return '"low":[' in self.office.get("report.jsonl") and json.loads(self.office.get("report.jsonl").splitlines()[-1])["audited"] > 0
        except urllib.error.HTTPError:
            return False

    def test_the_least_is_asked_and_drawn(self):
        kinds = [one.text for one in self.browser.all("#kinds label")]
        self.assertEqual(kinds, ["Number of rows", "Total", "Average", "Least"])
        self.assertIn("the least number", self.browser.text("columns"))
        self.least_is_chosen()
        self.browser.ask()
        self.answers(f"{least(self.rows)} days")
        wards = sorted({row.ward for row in self.rows})
        self.draw("min stay", "ward", len(wards))
        self.assertEqual({label: text for label, text, _ in self.bars()}, {ward: f"{least(self.rows, ward)} days" for ward in wards})

    def test_a_denial_is_explained(self):
        self.least_is_chosen()
        self.browser.write("age = 20")
        self.browser.ask()
        self.browser.click("#answer button")
        self.browser.wait(lambda: "one person alone could have it" in self.browser.text("answer"))

    def test_the_report_moves_a_number_up(self):
        self.least_is_chosen()
        self.browser.ask()
        self.browser.wait(self.reported)
        self.browser.click("#report")
        self.browser.wait(lambda: len(self.browser.all("#free details")) == 2)
        self.browser.click("#free details:nth-child(1) summary")
        self.browser.wait(lambda: self.browser.all("#free details:nth-child(1) button"))
        self.browser.click("#free details:nth-child(1) button")
        said = self.browser.find("#free details:nth-child(1) [role=status]").text
        bound = least(self.rows)
        self.assertIn(f"this one {bound + 1} days in place of {bound} days", said)


class Prepared(TableTest):
    """What prepare.py makes of a file with such a column."""

    FILE = "ward,stay\n" + "".join(f"{'NS'[place % 2]},{number}\n" for place, number in enumerate([3, 5, 7, 7, 2, 9]))

    def test_the_schema_says_min(self):
        self.made(self.FILE, "ward=text", "stay=min")
        schema = json.loads((self.out / "schema.json").read_text())
        self.assertEqual(schema["columns"], [{"name": "ward", "is": "text"}, {"name": "stay", "is": "min"}])

    def test_a_minimum_at_the_high_end_is_pointed_out(self):
        said = self.made(self.FILE, "ward=text", "stay=min", "stay.range=0 to 9")
        self.assertIn("1 number of stay is the highest that people hold for possible. A minimum that is this number says of everybody", said)

    def test_a_minimum_at_the_low_end_is_not(self):
        said = self.made(self.FILE, "ward=text", "stay=min", "stay.range=2 to 10")
        self.assertNotIn("that people hold for possible", said)

    def test_one_number_stands_in_no_two_secret_columns(self):
        twice = self.FILE.replace("ward,stay", "ward,stay,again").replace("\n", ",\n").replace("again,", "again")
        rows = [line.split(",") for line in twice.splitlines()]
        text = "\n".join(",".join([*row[:2], "again" if place == 0 else row[1]]) for place, row in enumerate(rows)) + "\n"
        said = self.refused(text, "ward=text", "stay=min", "again=max")
        self.assertIn("again", said)


class NearTheNumbers(TableTest):
    """How far a report shows numbers to be open."""

    def test_a_number_may_be_anything_from_its_low_bound_on(self):
        table, report = self.folder / "table.csv", self.folder / "report"
        table.write_text("ward,stay\nN,3\nN,5\nS,7\nS,-4\n")
        report.write_text('{"column":"stay","low":[3,3,0,0]}\n{"audited":1,"columns":1,"rows":4}\n')
        column = read_column(report, table, "stay")
        self.assertEqual(column, Minima([3, 5, 7, -4], [3, 3, 0, 0]))
        known = [Range(-9, 10)] * 4
        self.assertEqual(shown_by(column, known), [Range(3, 10), Range(3, 10), Range(0, 10), Range(-9, 10)])
        with self.assertRaises(Fault):
            shown_by(column, [Range(-9, 10), Range(-8, 10), *known[2:]])


if __name__ == "__main__":
    unittest.main()

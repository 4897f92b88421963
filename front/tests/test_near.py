"""What near.py shows of reports and numbers worked out by hand, and after attacks over the program.

AUDITOR=.. /usr/bin/python3 -m unittest test_near
"""

import json
import pathlib
import random
import subprocess
import sys
import tempfile
import unittest
from unittest import mock

from table_kit import AUDITOR, FRONT, needs_program, said_by

sys.path.insert(0, str(FRONT))

import near  # noqa: E402

# Six salaries, and changes that leave the sums over rows 0 and 1, over all, over rows 1, 3 and 5, and over rows 2 and 3.
SALARIES = [100, 200, 300, 400, 500, 600]
FIRST = {0: 1, 1: -1, 2: -1, 3: 1}
SECOND = {0: 1, 1: -1, 4: -1, 5: 1}


def turned(change):
    return {row: -step for row, step in change.items()}


CHANGES = [FIRST, turned(FIRST), turned(FIRST), FIRST, turned(SECOND), SECOND]


class NearTest(unittest.TestCase):
    """A test with a fresh folder for a table and a report."""

    def setUp(self):
        folder = tempfile.TemporaryDirectory(prefix="near-")
        self.addCleanup(folder.cleanup)
        self.folder = pathlib.Path(folder.name)
        self.report, self.table = self.folder / "report.jsonl", self.folder / "table.csv"

    def write(self, numbers, lines):
        self.table.write_text("id,v\n" + "".join(f"{row},{number}\n" for row, number in enumerate(numbers)))
        lines = [*lines, {"audited": 1, "columns": 1, "rows": len(numbers)}]
        self.report.write_text("".join(json.dumps(line) + "\n" for line in lines))

    def sums(self, numbers, changes):
        """Writes a table with these numbers, and a report with these changes."""
        self.write(numbers, [{"column": "v", "row": row, "direction": sorted(map(list, change.items()))}
                             for row, change in enumerate(changes)])

    def near(self, *words):
        return said_by(near.main, [self.report, self.table, "v", *words])


class OfSeveralPeople(NearTest):
    """Rows 0 and 2 of one person, row 1 of three, after the sums over rows 0 and 1 and over rows 1 and 2, or after maxima."""

    def people(self, numbers, kind, lines, people=5):
        self.write(numbers, lines)
        text = "".join(f"{row},{count},{number}\n" for row, (count, number) in enumerate(zip([1, 3, 1], numbers)))
        self.table.write_text("id,people,v\n" + text)
        columns = [{"name": name, "is": what} for name, what in (("id", "number"), ("people", "count"), ("v", kind))]
        (self.folder / "schema.json").write_text(json.dumps({"columns": columns}))
        self.report.write_text("".join(json.dumps(line) + "\n" for line in [*lines, {"audited": 2, "columns": 1, "rows": 3, "people": people}]))

    def sums_of(self, numbers, **more):
        change = [[0, 1], [1, -1], [2, 1]]
        self.people(numbers, "sum", [{"column": "v", "row": row, "direction": change} for row in (0, 2)], **more)

    def test_a_range_is_each_persons_and_rows_of_several_are_named(self):
        self.sums_of([100, 620, 150])
        # Three people come to 630 at most: taken off ten times, and added 60 times, when row 2 has 210.
        self.assertEqual(self.near(0, 210, "--share", 41), (1, (
            "v: 2 numbers, of which 1 are shown to be open by 41 % or more by the report's lines alone\n"
            "1 row of several people, of which nothing is shown: 1\nrow 2: 150, shown only from 140 to 210\n")))
        self.assertEqual(self.near(0, 210, "--share", 40)[0], 0)
        self.assertEqual(self.near(0, 206, "--share", 40)[0], 2)

    def test_a_line_of_a_row_of_several_people_is_read_and_not_shown(self):
        change, other = [[0, 1], [1, -1], [2, 1]], [[0, -1], [1, 1], [2, -1]]
        self.people([100, 620, 150], "sum", [{"column": "v", "row": row, "direction": own} for row, own in ((0, change), (1, other), (2, change))])
        self.assertIn("of which nothing is shown: 1\nrow 2: 150, shown only from 140 to 210", self.near(0, 210, "--share", 41)[1])
        self.people([100, 620, 150], "sum", [{"column": "v", "row": row, "direction": own} for row, own in ((0, change), (1, other))])
        self.assertIn("isn't a whole report", self.near(0, 210)[1])

    def test_a_search_shows_the_same(self):
        self.sums_of([100, 620, 150])
        self.assertIn("row 2: 150, shown only from 140 to 210", self.near(0, 210, "--share", 41, "--search")[1])

    def test_of_maxima_the_rows_of_one_person_are_shown(self):
        self.people([5, 9, 9], "max", [{"column": "v", "high": [9, 9, 9]}])
        self.assertEqual(self.near(0, 20, "--share", 81), (0, (
            "v: 2 numbers, of which 2 are shown to be open by 81 % or more by the report's lines alone\n"
            "1 row of several people, of which nothing is shown: 1\n")))

    def test_without_the_schema_or_of_another_table_it_is_said(self):
        self.sums_of([100, 620, 150], people=6)
        self.assertIn("isn't of this table: it is of 6 people", self.near(0, 210)[1])
        self.sums_of([100, 620, 150])
        (self.folder / "schema.json").unlink()
        self.assertIn("names no column with how many", self.near(0, 210)[1])


class Shown(NearTest):
    def test_a_change_is_added_as_often_as_it_fits(self):
        self.sums(SALARIES, CHANGES)
        # Adding the second change is stopped by row 5 at 650, after 50 times; taking it off by row 0 at 0, after 100.
        self.assertEqual(self.near(0, 650, "--share", 21), (1, (
            "v: 6 numbers, of which 4 are shown to be open by 21 % or more by the report's lines alone\n"
            "row 4: 500, shown only from 450 to 600\nrow 5: 600, shown only from 500 to 650\n")))

    def test_a_share_that_is_just_reached_counts(self):
        self.sums(SALARIES, CHANGES)
        said = self.near(0, 650, "--share", 20)[1]
        self.assertNotIn("row 4", said)
        self.assertIn("row 5: 600, shown only from 500 to 650", said)
        self.assertEqual(self.near(0, 650, "--share", 16)[0], 0)

    def test_a_change_of_several_shows_steps_of_its_own(self):
        self.sums([10, 10], [{0: 3, 1: -2}, {0: -3, 1: 2}])
        # To either end of the range it is 10, into which 3 fits three times: row 0 may be 19 or 1, and row 1 then is 4 or 16.
        said = self.near(0, 20, "--share", 91)[1]
        self.assertIn("row 0: 10, shown only from 1 to 19", said)
        self.assertIn("row 1: 10, shown only from 4 to 16", said)
        self.assertEqual(self.near(0, 20, "--share", 60)[0], 0)

    def test_without_an_end_nothing_stops_it(self):
        self.sums([10, 10], [{0: 1, 1: -1}, {0: -1, 1: 1}])
        self.assertEqual(self.near("none", "none", "--share", 1000)[0], 0)
        self.assertEqual(self.near("none", 10, "--share", 1)[0], 1)
        self.assertEqual(self.near(10, "none", "--share", 1)[0], 1)

    def test_two_at_the_range_s_end_hold_a_chain(self):
        changes = [{row: (-1) ** (row + own) for row in range(6)} for own in range(6)]
        self.sums([5, 0, 7, 8, 0, 9], changes)
        said = self.near(0, "none")[1]
        self.assertEqual(said.count("and no other number is shown: take it for known"), 6)
        self.sums([5, 0, 7, 0, 8, 9], changes)
        self.assertEqual(self.near(0, "none")[0], 0)

    def test_numbers_wider_than_a_double_are_exact(self):
        large = 2**80 + 1
        self.sums([0, 10**12], [{0: 1, 1: -large}, {0: -1, 1: large}])
        self.assertEqual(self.near(0, 10**12)[1].count("take it for known"), 2)
        self.assertEqual(self.near(-large, large, "--share", 1000)[0], 0)

    def ends(self, text):
        """Writes a file with the ends of each row's range."""
        (self.folder / "ends.csv").write_text(text)
        return "--ends", self.folder / "ends.csv"

    def test_each_row_may_have_a_range_of_its_own(self):
        self.sums(SALARIES, CHANGES)
        ends = self.ends("low,high\n40,140\n100,300\n0,none\n,400\nnone,650\n500,700\n")
        # The first change can be added 0 times, since row 3 is at its high end, and taken off 60 times: row 0 may go down to 40, and row 1 up by
        # 60. The second is added up to 40 times and taken off up to 60 times, in both cases as far as row 0 goes.
        said = self.near("low", "high", *ends, "--share", 61)[1]
        self.assertEqual(said.splitlines()[1:], [
            "row 0: 100, shown only from 40 to 100", "row 1: 200, shown only from 200 to 260", "row 2: 300, shown only from 300 to 360",
            "row 3: 400, shown only from 340 to 400", "row 4: 500, shown only from 460 to 560", "row 5: 600, shown only from 540 to 640"])
        self.assertIn("row 0: 100, shown only from 40 to 100", self.near(0, "high", *ends, "--share", 300)[1].replace("from 0", "from 40"))

    def test_ends_may_stand_in_the_table_itself(self):
        self.sums([10, 10], [{0: 1, 1: -1}, {0: -1, 1: 1}])
        self.table.write_text("id,v,band\n0,10,8\n1,10,3\n")
        # Row 0 goes down by 2, and row 1 by 7.
        said = self.near("band", "none", "--share", 100)[1]
        self.assertIn("row 0: 10, shown only from 8 to 17", said)
        self.assertIn("row 1: 10, shown only from 3 to 12", said)

    def test_of_maxima_the_low_end_alone_may_be_each_row_s(self):
        self.write([3, 9, 9], [{"column": "v", "high": [3, 9, 9]}])
        said = self.near("low", 10, *self.ends("low,high\n3,9\n2,9\n9,10\n"))[1]
        self.assertEqual(said.splitlines()[1:], [
            "row 0: 3, and no other number is shown: take it for known", "row 2: 9, and no other number is shown: take it for known"])
        self.assertEqual(self.near(0, "high", "--ends", self.folder / "ends.csv"), (
            2, "near: of a column of maxima the high end has to be one for all rows: give a number, or none\n"))

    def test_a_maximum_may_be_anything_up_to_what_is_printed(self):
        self.write([3, 9, 9, 0, 4], [{"column": "v", "high": [9, 9, 9, 4, 0]}])
        # Of row 3 it is 4 up to which it may go. No set holds row 4, or 0 would be below its number.
        said = self.near(0, 10, "--share", 101)[1]
        self.assertIn("row 1: 9, shown only from 0 to 9", said)
        self.assertIn("row 2: 9, shown only from 0 to 9", said)
        self.assertNotIn("row 3", said)
        self.assertNotIn("row 4", said)

    def test_a_maximum_of_0_at_most_isnt_taken_for_a_row_that_no_set_holds(self):
        self.write([-5, -1], [{"column": "v", "high": [0, 0]}])
        self.assertIn("row 0: -5, shown only from -10 to 0", self.near(-10, 10, "--share", 101)[1])

    def test_a_maximum_that_is_the_lowest_number_is_known(self):
        self.write([3, 3, 9], [{"column": "v", "high": [3, 3, 9]}])
        said = self.near(3, 10)[1]
        self.assertIn("row 0: 3, and no other number is shown", said)
        self.assertIn("row 1: 3, and no other number is shown", said)
        self.assertNotIn("row 2", said)


class Searched(NearTest):
    def solver(self, counts):
        """In place of the solver, one that finds these counts for the two changes, and no way to stay away from the ends."""
        return mock.patch("nearing.searching.solved", side_effect=lambda cost, *_: counts if len(cost) == 2 else None)

    def test_changes_together_show_more_than_each_alone(self):
        self.sums(SALARIES, CHANGES)
        # Taking the second change off 150 times brings row 4 to 650; the first one, added 50 times, keeps row 0 at 0.
        status, said = self.near(0, 650, "--share", 26, "--search")
        self.assertEqual(status, 1, said)
        self.assertEqual(said.splitlines()[1:], [
            "searched over 2 changes", "searched besides: 5 are shown to be open by 26 % or more", "row 5: 600, shown only from 450 to 650"])
        self.assertEqual(self.near(0, 650, "--share", 25, "--search")[0], 0)

    def test_counts_that_have_to_be_rounded_are_kept_away_from_the_ends(self):
        first, numbers = self.rounded()
        self.sums(numbers, [change if change[row] > 0 else turned(change) for row, change in enumerate(first)])
        status, said = self.near(0, "none", "--search")
        self.assertEqual(status, 0, said)
        with mock.patch("nearing.searching.SHARES", (0,)):
            self.assertEqual(self.near(0, "none", "--search")[0], 1)

    def test_what_the_solver_finds_counts_only_if_it_fits_in_whole_numbers(self):
        self.sums(SALARIES, CHANGES)
        for counts in ([0.0, -151.0], [0.0, -120.0], [49.4, -150.4], [1000.0, 1000.0]):
            with self.subTest(counts), self.solver(counts):
                said = self.near(0, 650, "--share", 26, "--search")[1]
                self.assertIn("row 5: 600, shown only from 500 to 650", said)

    def test_changes_with_large_numbers_are_made_shorter(self):
        # Each alters row 2 by 2^40 or more, and both together, or one less the other, by 1.
        large = 2**40
        for first in ({0: 1, 2: -large}, {0: 1, 2: large}):
            with self.subTest(first):
                second = {1: 1, 2: large + 1}
                self.sums([50, 60, 70], [first, second, second])
                self.assertEqual(self.near(0, 1000)[1].count("take it for known"), 3)
                status, said = self.near(0, 1000, "--search")
                self.assertIn("searched over 2 changes, 2 of them made shorter, 1 of them tried alone", said)
                self.assertEqual(status, 0, said)

    def test_changes_beyond_the_ranges_dont_hinder_the_others(self):
        first, numbers = self.rounded()
        beyond = {row: (-1) ** row * (2**35 + 2 * row + 1) for row in range(12)} | {12: 2**50, 13: -(2**50)}
        self.sums([*numbers, 5, 5], [change if change[row] > 0 else turned(change) for row, change in enumerate([*first, beyond, beyond])])
        said = self.near(0, "none", "--search")[1]
        self.assertIn("1 of them tried alone, since their numbers are beyond the ranges", said)
        self.assertEqual([line.split(":")[0] for line in said.splitlines() if line.startswith("row")], ["row 12", "row 13"])
        with mock.patch("nearing.searching.Search.may_fit", return_value=True):
            self.assertGreater(self.near(0, "none", "--search")[1].count("\nrow "), 2)

    def rounded(self):
        """Twelve numbers, some of them 0, and changes of small numbers: where the best counts are rounded some number is below 0."""
        draw = random.Random(5)
        base = [{row: step for row in range(12) if (step := draw.choice([-3, -2, -1, 0, 0, 0, 1, 2, 3]))} for _ in range(5)]
        first = [next(change for change in base if row in change) for row in range(12)]
        return first, [draw.choice([0, 0, draw.randrange(500, 2000)]) for _ in range(12)]

    def test_a_solver_that_finds_nothing_leaves_what_was_shown(self):
        self.sums(SALARIES, CHANGES)
        with self.solver(None):
            said = self.near(0, 650, "--share", 26, "--search")[1]
        self.assertIn("row 5: 600, shown only from 500 to 650", said)

    def test_without_scipy_it_says_what_to_install(self):
        self.sums(SALARIES, CHANGES)
        with mock.patch.dict(sys.modules, {"nearing.searching": None}):
            status, said = self.near(0, 650, "--share", 26, "--search")
        self.assertEqual(status, 2)
        self.assertIn("apt-get install --no-install-recommends python3-scipy", said)


class Refused(NearTest):
    def refused(self, due, *words):
        status, said = self.near(*(words or (0, 650)))
        self.assertEqual(status, 2, said)
        self.assertIn(due, said)
        self.assertTrue(said.startswith("near: "), said)

    def test_numbers_outside_of_the_range_are_named(self):
        self.sums(SALARIES, CHANGES)
        self.refused("row 4 has 500\nrow 5 has 600\n", 0, 450)

    def test_a_report_that_isnt_whole_is_refused(self):
        self.sums(SALARIES, CHANGES)
        lines = self.report.read_text().splitlines(keepends=True)
        for kept, due in (
            (lines[:-1], "its last line doesn't say how much was audited"),
            (lines[1:], "isn't a whole report of the column 'v'"),
            (lines[:3] + lines[4:], "isn't a whole report of the column 'v'"),
            ([lines[3], *lines[1:3], lines[0], *lines[4:]], "isn't a whole report of the column 'v'"),
            ([lines[0].replace("[0, 1]", "[0, -1]"), *lines[1:]], "isn't a whole report of the column 'v'"),
            ([lines[0].replace("[1, -1]", "[6, -1]"), *lines[1:]], "isn't a whole report of the column 'v'"),
            ([lines[0].replace("[2, -1]", "[1, -1]"), *lines[1:]], "isn't a whole report of the column 'v'"),
            ([lines[0].replace("[1, -1]", "[1, -1.5]"), *lines[1:]], "isn't a whole report of the column 'v'"),
            ([lines[0][:20]], "a line of it isn't JSON"),
            (["[]\n"], "isn't a whole report"),
            ([], "isn't a whole report"),
        ):
            with self.subTest(due, kept=kept[:2]):
                self.report.write_text("".join(kept))
                self.refused(due)

    def test_bounds_below_a_number_are_of_another_table(self):
        self.write([3, 9], [{"column": "v", "high": [9, 8]}])
        self.refused("isn't a whole report of the column 'v'")

    def test_ends_that_arent_the_table_s_are_refused(self):
        self.sums(SALARIES, CHANGES)
        for text, due in (("low\n1\n", "ends.csv has 1 row, and "), ("high\n1\n", "has no column 'low': there are 'high'"),
                          ("low\n" + "x\n" * 6, "isn't a table with whole numbers, or none, in the column 'low'"),
                          ("low\n" + "101\n" * 6, "not all numbers are in this range, counting rows from 0 without the header:\nrow 0 has 100")):
            with self.subTest(due):
                (self.folder / "ends.csv").write_text(text)
                self.refused(due, "low", "none", "--ends", self.folder / "ends.csv")
        self.refused("has no column 'low': there are 'id', 'v'", "low", 650)

    def test_another_table_is_refused(self):
        self.sums(SALARIES, CHANGES)
        self.table.write_text("id,w\n0,1\n")
        self.refused("has no column 'v': there are 'id', 'w'")
        self.table.write_text("id,v\n0,many\n")
        self.refused("isn't a table with whole numbers in the column 'v'")
        self.table.write_text("")
        self.refused("isn't a table with whole numbers")
        self.table.unlink()
        self.refused("No such file or directory")

    def test_wrong_arguments_end_with_status_2(self):
        for words in ((0,), (0, 650, "--share", 0), (0, 650, "--share", "ten"), (0, 650, "--publish")):
            with self.subTest(words), self.assertRaises(SystemExit) as ended:
                self.near(*words)
            self.assertEqual(ended.exception.code, 2)

    def test_help_says_that_the_output_stays_with_the_owner(self):
        with self.assertRaises(SystemExit):
            self.near("--help")
        self.assertIn("Never publish either", near.__doc__)


def doubling(levels):
    """Sets of two and three rows that leave one change: 1 at row 0, and twice as much at each level."""
    sets, first, second, free = [[0, 1], [0, 2]], 1, 2, 3
    for _ in range(1, levels):
        sets += [[free, first, second], [free, free + 1], [free, free + 2]]
        first, second, free = free + 1, free + 2, free + 3
    return sets + [[free, first, second]]


class AfterAnAttack(NearTest):
    @needs_program
    def test_it_names_exactly_those_whose_numbers_are_known(self):
        draw = random.Random(17)
        numbers = [draw.randrange(40_000, 200_000) for _ in range(80)]
        self.write(numbers, [])
        kinds = [{"name": "id", "is": "number"}, {"name": "v", "is": "sum"}]
        (self.folder / "schema.json").write_text(json.dumps({"columns": kinds}))
        sets = [*doubling(18), list(range(55, 80)), list(range(60, 70))]
        lines = [{"ask": "sum", "column": "v", "where": f"id in ({', '.join(map(str, rows))})"} for rows in sets]
        self.run_program("init")
        said = self.run_program("serve", "".join(json.dumps(line) + "\n" for line in lines))
        self.assertEqual(said.count("sum"), 56, said)
        self.report.write_text(self.run_program("audit"))
        status, said = self.near(0, 250_000)
        self.assertEqual(status, 1)
        self.assertIn("80 numbers, of which 25 are shown to be open by 10 % or more", said)
        self.assertEqual([f"row {row}: {numbers[row]:,}, and no other number is shown: take it for known" for row in range(55)],
                         said.splitlines()[1:])

    def run_program(self, command, given=""):
        return subprocess.run([AUDITOR, command], cwd=self.folder, input=given, capture_output=True, text=True, check=True).stdout


if __name__ == "__main__":
    unittest.main()

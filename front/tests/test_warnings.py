"""What prepare.py points out of tables in which people know more than that numbers are whole. No program is needed.

/usr/bin/python3 -m unittest test_warnings
"""

import os
import random
import unittest
from unittest import mock

from table_kit import TableTest


class Warnings(TableTest):
    """A test on what `make` says, with CAREFUL before it, of a table that is drawn or written down here."""

    def setUp(self):
        super().setUp()
        self.draw = random.Random(7)
        without = mock.patch.dict(os.environ, {"PATH": ""})
        without.start()
        self.addCleanup(without.stop)
        os.environ.pop("AUDITOR", None)

    def careful(self, columns, *words):
        """The warnings on a table with these columns, given as lists of cells by name, without the one on every range."""
        return [line for line in self.all_said(columns, *words) if not line.startswith("people know a range of ")]

    def all_said(self, columns, *words):
        """All warnings on it."""
        self.choices.unlink(missing_ok=True)
        self.out = self.folder / f"out{len(list(self.folder.iterdir()))}"
        rows = "".join(",".join(map(str, cells)) + "\n" for cells in zip(*columns.values()))
        said = self.made(",".join(columns) + "\n" + rows, *words)
        return [line.removeprefix("CAREFUL: ") for line in said.splitlines() if line.startswith("CAREFUL: ")]

    def of_pays(self, pays, *words, kind="sum"):
        """The warnings on one secret column, beside a public one that tells nothing."""
        return self.careful({"team": [f"t{place % 3}" for place in range(len(pays))], "pay": pays}, "team=text", f"pay={kind}", *words)

    def pays(self, count=40):
        """Different numbers from 1,000 to 1,999."""
        return self.draw.sample(range(1000, 2000), count)


class Always(Warnings):
    """What is said wherever the numbers stand."""

    def test_a_range_protects_nothing(self):
        columns = {"team": ["A", "B", "C", "A"], "pay": [1000, 1100, 1205, 1300], "bonus": [50, 42, 65, 71], "cost": [900, 100, 420, 777]}
        kinds = ("team=text", "pay=sum", "bonus=max", "cost=sum")
        for words, names in (((), None), (("pay.range=none to none",), None), (("pay.range=0 to none",), "pay"),
                             (("bonus.range=none to 99", "pay.range=0 to 9999"), "pay, bonus")):
            said = [line for line in self.all_said(columns, *kinds, *words) if line.startswith("people know a range")]
            self.assertEqual(said, [] if names is None else [
                f"people know a range of {names}, and naming it here protects nothing: whoever knows it can work out exact numbers by"
                ' questions that are all answered (THREATS.md, "What a range gives away")'])

    def test_look_says_that_a_range_is_for_the_warnings_alone(self):
        self.assertIn("it sets warnings alone", self.look("team,pay\nA,5\nB,7\n")[1])
        self.assertIn("It is for the warnings of make alone: it protects nothing.", self.prepare("look", "--more")[1])

    def test_a_sum_over_two_people_is_spoken_of_once_where_there_are_sums(self):
        for kind, times in (("sum", 1), ("max", 0)):
            self.choices.unlink(missing_ok=True)
            self.out = self.folder / kind
            said = self.made("team,pay,cost\nA,5,9\nB,7,3\nC,9,4\n", "team=text", f"pay={kind}", f"cost={kind}")
            self.assertEqual(said.count("tells each of them the other's number. "), times)
            self.assertEqual(said.count("door.py --least 5"), times)

    def test_a_file_that_others_may_read_is_named(self):
        inner = self.folder / "inner"
        inner.mkdir(mode=0o755)
        self.file, self.choices = inner / "t.csv", inner / "t.choices.json"
        for file, folder, careful in ((0o644, 0o755, True), (0o640, 0o710, True), (0o600, 0o755, False), (0o644, 0o700, False)):
            self.choices.unlink(missing_ok=True)
            self.out = self.folder / f"{file:o}-{folder:o}"
            self.look("team,pay\nA,5\nB,7\nC,9\n")
            self.choose("protect=none", "range=none", "team=text", "pay=sum")
            self.file.chmod(file)
            self.folder.chmod(folder)
            status, said = self.make()
            self.assertEqual((status, f"CAREFUL: others than its owner may read {self.file}, " in said), (0, careful), said)


class Ranges(Warnings):
    def test_nothing_is_said_of_numbers_far_inside(self):
        self.assertEqual(self.of_pays(self.pays(), "pay.range=0 to 10000"), [])
        self.assertEqual(self.of_pays([0, *self.pays()], "pay.range=none to none"), [])

    def test_rows_near_the_range_s_low_end_are_named(self):
        pays = self.pays(9) + [0, 150]
        # The median of the eleven is above 1,000, so 0 is nearer than a tenth of it, and 150 isn't if it is below 1,500.
        pays[:9] = [1000, 1100, 1200, 1300, 1400, 1400, 1500, 1600, 1700]
        (said,) = self.of_pays(pays, "pay.range=0 to none")
        self.assertTrue(said.startswith("1 number of pay is nearer to an end of the range that people know than a tenth"), said)
        self.assertTrue(said.endswith("Counted with the header as row 1: 11"), said)

    def test_a_tenth_of_the_median_is_where_it_begins(self):
        rest = [1000, 1001, 1002, 1003]
        self.assertEqual(len(self.of_pays([100, *rest, 999, 998], "pay.range=0 to none")), 0)
        self.assertEqual(len(self.of_pays([99, *rest, 999, 998], "pay.range=0 to none")), 1)

    def test_the_high_end_counts_as_the_low_one(self):
        (said,) = self.of_pays([1000, 1100, 1200, 1350, 1400], "pay.range=0 to 1450")
        self.assertIn("2 numbers of pay are nearer", said)
        self.assertTrue(said.endswith("row 1: 5, 6"), said)

    def test_rows_are_counted_as_in_the_file_without_those_that_are_dropped(self):
        columns = {"team": "ABCABC", "pay": ["", 1000, 0, 1100, 1200, 1300]}
        (said,) = self.careful(columns, "team=text", "pay=sum", "missing=drop the row", "pay.range=0 to none")
        self.assertTrue(said.endswith("Counted with the header as row 1: 4"), said)

    def test_whoever_has_the_lowest_possible_maximum_is_named(self):
        (said,) = self.of_pays([5, 0, 7, 1, 9, 4], "pay.range=0 to none", kind="max")
        self.assertTrue(said.startswith("1 number of pay is the lowest that people hold for possible"), said)
        self.assertTrue(said.endswith("row 1: 3"), said)
        self.assertEqual(self.of_pays([5, 2, 7, 1, 9, 4], "pay.range=0 to none", kind="max"), [])

    def test_the_far_largest_number_is_named(self):
        pays = [10, 11, 12, 13, 14, 15, 260]
        self.assertEqual(self.of_pays(pays, "pay.range=none"), [])
        (said,) = self.of_pays([*pays[:-1], 261], "pay.range=none")
        self.assertTrue(said.startswith("1 number of pay is more than twenty times the median"), said)
        self.assertIn("(the door's --least 5)", said)
        self.assertTrue(said.endswith("row 1: 8"), said)

    def test_rows_that_are_added_count_in_the_longer_table(self):
        self.of_pays([1000, 1100, 1200, 1300, 1400], "pay.range=0 to none")
        self.file.write_text("team,pay\nt0,0\n")
        status, said = self.prepare("add", self.file, self.choices, self.out, self.folder / "longer")
        self.assertEqual(status, 0, said)
        self.assertIn("1 number of pay is nearer to an end", said)
        self.assertIn("Counted with the header as row 1: 7", said)
        self.file.write_text("team,pay\nt0,-1\n")
        status, said = self.prepare("add", self.file, self.choices, self.out, self.folder / "longest")
        self.assertEqual(status, 1)
        self.assertIn("pay: row 7 has a number that isn't in the range '0 to none'", said)


class Lists(Warnings):
    def test_fewer_numbers_than_half_the_rows_come_from_a_list(self):
        scale = [1000 + 40 * step for step in range(19)]
        (said,) = self.of_pays([scale[place % 19] for place in range(40)], "pay.range=none")
        self.assertTrue(said.startswith("pay has 19 different numbers in 40 rows, as numbers have that come from a list"), said)
        self.assertEqual(self.of_pays([1000 + 40 * (place % 20) for place in range(40)], "pay.range=none"), [])

    def test_three_values_are_still_named_as_before(self):
        (said,) = self.of_pays([5, 5, 5, 7, 7, 7, 9, 9, 9, 5, 5, 7, 7, 9, 9], "pay.range=none")
        self.assertTrue(said.startswith("pay is always one of 5, 7, 9"), said)


class TwoColumns(Warnings):
    def of_two(self, first, second, *words):
        columns = {"team": [f"t{place % 3}" for place in range(len(first))], "pay": first, "other": second}
        return self.careful(columns, "team=text", "pay=sum", "other=sum", "range=none", *words)

    def test_columns_that_have_nothing_to_do_with_each_other_are_taken(self):
        self.assertEqual(self.of_two(self.pays(), self.pays()), [])

    def test_one_that_is_never_above_the_other_is_pointed_out(self):
        pays = self.pays()
        others = [pay * self.draw.randrange(40, 101) // 100 for pay in pays]
        for first, second, due in ((pays, others, "other is never above pay"), (others, pays, "pay is never above other")):
            (said,) = self.of_two(first, second)
            self.assertTrue(said.startswith(due + ": the two go together. Three sums can tell three people's numbers"), said)

    def test_an_order_that_follows_from_the_columns_ranges_isnt_said(self):
        self.assertEqual(self.of_two(self.pays(), [self.draw.randrange(50) for _ in range(40)]), [])

    def test_a_share_within_a_quarter_is_pointed_out(self):
        pays = self.pays()
        tenth = [2_500] + [pay * self.draw.randrange(90, 111) // 1000 for pay in pays[1:]]
        (said,) = self.of_two(pays, tenth)
        self.assertTrue(said.startswith("other over pay stays within a quarter in nine rows of ten"), said)

    def test_nothing_is_said_of_fewer_than_ten_rows(self):
        pays = self.pays(10)
        others = [pay * self.draw.randrange(40, 101) // 100 for pay in pays]
        self.assertEqual(len(self.of_two(pays, others)), 1)
        self.assertEqual(self.of_two(pays[:9], others[:9]), [])

    def test_both_are_said_in_one_line(self):
        pays = self.pays()
        nets = [pay * self.draw.randrange(58, 67) // 100 for pay in pays]
        (said,) = self.of_two(pays, nets)
        self.assertTrue(said.startswith("other is never above pay, and other over pay stays within a quarter"), said)

    def test_nine_rows_in_ten_are_enough_and_eight_arent(self):
        pays = list(range(1000, 3000, 100))
        shares = [100] * 9 + [124] * 9 + [30, 1100]
        near = [pay * share // 1000 for pay, share in zip(pays, shares)]
        (said,) = self.of_two(pays, near)
        self.assertIn("within a quarter", said)
        shares[0] = 30
        self.assertEqual(self.of_two(pays, [pay * share // 1000 for pay, share in zip(pays, shares)]), [])
        shares = [100] * 9 + [127] * 9 + [30, 1100]
        self.assertEqual(self.of_two(pays, [pay * share // 1000 for pay, share in zip(pays, shares)]), [])


class PublicColumns(Warnings):
    def of_grade(self, grades, pays):
        return self.careful({"grade": grades, "pay": pays}, "grade=text", "pay=sum", "range=none")

    def test_a_value_with_one_number_but_for_two_rows_is_pointed_out(self):
        pays = self.pays(20)
        grades = ["A"] * 7 + ["B"] * 13
        (said,) = self.of_grade(grades, [1500] * 5 + pays[5:])
        self.assertTrue(said.startswith("pay is one number but for a row or two where grade, which is public, is one of: 'A'."), said)
        self.assertEqual(self.of_grade(grades, [1500] * 4 + pays[4:]), [])

    def test_fewer_than_five_rows_say_nothing(self):
        pays = self.pays(20)
        self.assertEqual(self.of_grade(["A"] * 4 + ["B"] * 16, [1500] * 4 + pays[4:]), [])
        self.assertEqual(len(self.of_grade(["A"] * 5 + ["B"] * 15, [1500] * 5 + pays[5:])), 1)

    def test_a_narrow_band_within_a_value_is_pointed_out(self):
        pays = self.pays(20)
        band = [1000, 1020, 1040, 1060, 1103]
        (said,) = self.of_grade(["A"] * 5 + ["B"] * 15, band + pays[5:])
        self.assertTrue(said.startswith("pay spreads by less than a tenth where grade, which is public, is one of: 'A'."), said)
        self.assertEqual(self.of_grade(["A"] * 5 + ["B"] * 15, band[:-1] + [1104] + pays[5:]), [])

    def test_a_public_column_of_one_value_tells_nothing(self):
        self.assertEqual(self.of_grade(["A"] * 5, [1000, 1020, 1040, 1060, 1080]), [])

    def test_a_column_that_fixes_it_whole_is_said_once(self):
        grades = [f"g{place % 12}" for place in range(24)] + ["g0"] * 4
        pays = [1000 + 100 * int(grade[1:]) for grade in grades]
        said = self.of_grade(grades, pays)
        self.assertEqual(sum("grade" in line for line in said), 1)
        self.assertIn("grade, which is public, fixes pay in this table", "".join(said))


if __name__ == "__main__":
    unittest.main()

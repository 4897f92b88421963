"""What prepare.py writes, says and points out of tables whose schema states a width and a reach. No program is needed.

/usr/bin/python3 -m unittest test_limits
"""

import json
import os
import unittest
from unittest import mock

from table_kit import TableTest

TEXT = "team,pay\n" + "".join(f"t{row % 3},{pay}\n" for row, pay in enumerate([1000, 1100, 1210, 1300, 1405, 1500, 1610]))
CHOSEN = ("protect=none", "team=text", "pay=sum")


class WithLimits(TableTest):
    """A test in which prepare.py finds no program."""

    def setUp(self):
        super().setUp()
        patch = mock.patch.dict(os.environ, {"PATH": ""})
        patch.start()
        self.addCleanup(patch.stop)
        os.environ.pop("AUDITOR", None)

    def written(self, *words):
        """What is said of the table with these choices, and the schema."""
        for status, said in (self.look(TEXT), self.choose(*CHOSEN, *words), self.make()):
            self.assertEqual(status, 0, said)
        schema = json.loads((self.out / "schema.json").read_text())
        self.assertEqual(schema, json.loads((self.out / "public" / "schema.json").read_text()))
        return said, schema


class Both(WithLimits):
    def test_a_width_of_4_and_a_reach_of_50_are_written_unless_others_are_chosen(self):
        said, schema = self.written("range=none")
        self.assertEqual({key: schema[key] for key in ("width", "reach")}, {"width": 4, "reach": 50})
        self.assertIn("\nwidth 4: a sum is denied if", said)
        self.assertIn("\nreach 50: a sum is denied if", said)

    def test_another_number_is_written_as_it_is_chosen(self):
        _, schema = self.written("range=none", f"width={2**56}", "reach=4096")
        self.assertEqual({key: schema[key] for key in ("width", "reach")}, {"width": 2**56, "reach": 4096})

    def test_none_leaves_a_limit_out(self):
        said, schema = self.written("range=none", "width=none", "reach=none")
        self.assertEqual(list(schema), ["columns"])
        self.assertNotIn("a sum is denied if", said)

    def test_each_may_be_left_out_alone(self):
        for key, other in (("width", "reach"), ("reach", "width")):
            with self.subTest(key):
                self.choices.unlink(missing_ok=True)
                self.out = self.folder / f"without-{key}"
                said, schema = self.written("range=none", f"{key}=none")
                self.assertEqual(list(schema), ["columns", other])
                self.assertEqual([word for word in ("\nwidth 4: ", "\nreach 50: ") if word in said], [f"\n{other} {schema[other]}: "])

    def test_look_says_what_they_are_and_more_what_they_cost(self):
        self.assertIn("set for you: width 4 and reach 50", self.look(TEXT)[1])
        said = self.prepare("look", "--more")[1]
        self.assertIn('"width" is 4 unless you choose another width, from 1 on, or width=none: a sum is denied if', said)
        self.assertIn('"reach" is 50 unless you choose another reach, from 2 on, or reach=none: a sum is denied if', said)
        self.assertEqual({key: self.chosen()[key] for key in ("width", "reach")}, {"width": 4, "reach": 50})

    def test_a_number_that_the_schema_may_not_state_is_refused(self):
        for key, least, most in (("width", 1, 2**56), ("reach", 2, 4096)):
            for number, due in ((least - 1, 1), (least, 0), (most, 0), (most + 1, 1)):
                with self.subTest(key, number=number):
                    self.choices.unlink(missing_ok=True)
                    self.out = self.folder / f"{key}-{number}"
                    self.look(TEXT)
                    self.assertEqual(self.choose(*CHOSEN, "range=none", f"{key}={number}")[0], 0)
                    status, said = self.make()
                    self.assertEqual(status, due, said)
                    if due:
                        self.assertIn(f"\"{key}\" can't be {number}: it is {least:,} to {most:,}, or null for no such limit", said)
            status, said = self.choose(f"{key}=4.0")
            self.assertEqual((status, said), (1, f"prepare: {key} can't be '4.0': it is a number or none\n"))

    def test_choices_of_an_earlier_look_get_the_usual_limits(self):
        self.look(TEXT)
        choices = self.chosen()
        del choices["width"], choices["reach"]
        self.choices.write_text(json.dumps(choices))
        self.choose(*CHOSEN, "range=none")
        self.assertEqual(self.make()[0], 0)
        schema = json.loads((self.out / "schema.json").read_text())
        self.assertEqual((schema["width"], schema["reach"]), (4, 50))

    def test_an_older_program_may_not_know_them(self):
        program = self.folder / "auditor"
        program.write_text("#!/bin/sh\necho 'schema: fault 3' >&2\nexit 3\n")
        program.chmod(0o700)
        self.look(TEXT)
        self.choose(*CHOSEN, "range=none")
        with mock.patch.dict(os.environ, {"AUDITOR": str(program)}):
            status, said = self.make()
        self.assertEqual(status, 1)
        self.assertIn("This auditor may be older than a width or a reach: choose width=none or reach=none, or take a newer one", said)
        self.assertFalse(self.out.exists())


class HeldDown(WithLimits):
    """Pays from 1,000 to 1,610, of which the median is 1,300."""

    def careful(self, *words, of="pay"):
        said, _ = self.written(*words)
        return [line for line in said.splitlines() if line.startswith("CAREFUL: ") and f" of {of} from the range's ends" in line]

    def test_nothing_is_said_of_numbers_far_enough_inside(self):
        # The nearest is 2,080 from the low end: over 16 that is 130, a tenth of the median.
        self.assertEqual(self.careful("pay.range=-1080 to none", "width=4"), [])
        self.assertEqual(len(self.other("pay.range=-1079 to none", "width=4")), 1)

    def other(self, *words):
        """The same of a table of its own."""
        self.choices.unlink()
        self.out = self.folder / f"out{len(list(self.folder.iterdir()))}"
        return self.careful(*words)

    def test_the_width_counts_by_its_square(self):
        self.assertEqual(self.careful("pay.range=480 to none", "width=2"), [])
        (said,) = self.other("pay.range=481 to none", "width=2")
        self.assertIn("over 4, is 9.9 % of the median, and below a tenth of it. 1 row holds it down", said)
        self.assertEqual(self.other("pay.range=870 to none", "width=1"), [])
        self.assertIn("over 1, is 9.9 % of the median", self.other("pay.range=871 to none", "width=1")[0])

    def test_the_rows_are_named_the_nearest_first(self):
        (said,) = self.careful("pay.range=880 to 1700", "width=1")
        # 1610 is 90 from the high end, 1000 is 120 from the low one.
        self.assertTrue(said.endswith("Counted with the header as row 1: 8, 2, the nearest first"), said)

    def always(self, *words):
        """What is said where nobody who is left out helps."""
        said, _ = self.written(*words)
        return [line for line in said.splitlines() if "is sure to keep every number of pay open" in line]

    def test_where_nobody_left_out_helps_no_row_is_named(self):
        # Within 0 to none a number is as far from the end as it is large: over 16 that is 6.25 % of itself, so of a median of some at most.
        # 1,000 over 16 is 62.5, so 62, of 1,300 4.8 %; over 9 it is 111, 8.5 %; over 4 it is 250, 19.2 %.
        (said,) = self.always("pay.range=0 to none", "width=4")
        self.assertIn("by 4.8 % of the median, and by no more than 6.25 % whoever is left out", said)
        self.assertIn("A width of 2 is sure of 19.2 %, and denies more: choose width=2, or publish a report over groups alone, and open no door", said)
        self.assertNotIn("row 1", said)

    def test_where_one_number_alone_would_do_rows_are_named(self):
        # Over 9 the numbers of 0 to none are 11.1 % of themselves.
        (said,) = self.careful("pay.range=0 to none", "width=3")
        self.assertIn("over 9, is 8.5 % of the median, and below a tenth of it. 2 rows hold it down", said)

    def test_where_a_smaller_width_needs_somebody_left_out_too(self):
        # 1,000 is 20 from the end, 1.5 % of 1,300, and 1,100 is 120, 9.2 %. 1,610, the farthest, is 630: over 16 that is 2.4 % of itself.
        (said,) = self.always("pay.range=980 to none", "width=4")
        self.assertIn("Even a width of 1 is sure of 1.5 % alone: 2 rows hold it down. Counted with the header as row 1: 2, 3, the nearest first", said)
        self.assertIn("Leave these out and choose a smaller width, or publish a report over groups alone", said)

    def test_where_no_width_helps(self):
        # Of 1,000 to 1,006 within 999 to 1,007 none is farther from an end than 4.
        text = "team,pay\n" + "".join(f"t{row % 3},{1000 + row}\n" for row in range(7))
        said = self.made(text, "team=text", "pay=sum", "pay.range=999 to 1007", "width=4", "reach=50")
        self.assertIn("Even a width of 1 is sure of 0 % alone, whoever is left out: publish a report over groups alone", said)

    def test_a_smaller_width_counts_in_whole_numbers(self):
        # 6 over 4 is 1, and a tenth of 15 isn't reached; over 1 it is 6, which is 40 %.
        text = "team,pay\n" + "".join(f"t{row % 3},{pay}\n" for row, pay in enumerate([6, 15, 15, 17, 14]))
        said = self.made(text, "team=text", "pay=sum", "pay.range=0 to none", "width=4", "reach=50")
        self.assertIn("A width of 1 is sure of 40 %, and denies more", said)

    def test_a_very_great_width_is_no_work(self):
        (said,) = self.always("pay.range=0 to none", f"width={2**56}")
        self.assertIn("A width of 2 is sure of 19.2 %", said)

    def test_askers_inside_are_told_of_by_their_own_bound(self):
        said, _ = self.written("pay.range=0 to none", "width=4", "askers=inside")
        # 2 times 4 times 4 times 4 is 128, which is 16 times twice 4.
        self.assertIn("from its ends, over 16, and against those who know their own number, over 128.", said)
        self.assertIn("Against those who know their own number each share is to be divided by twice the width", said)

    def test_with_a_reach_they_hold_down_those_of_one_change(self):
        (said,) = self.careful("pay.range=900 to none", "width=1")
        self.assertIn("hold it down, for those that stand in one change with theirs, at most 50 too", said.replace("holds", "hold"))
        (said,) = self.other("pay.range=900 to none", "width=1", "reach=none")
        self.assertIn("holds it down, for all others too", said)

    def test_a_range_is_spoken_of_as_the_width_has_it(self):
        said, _ = self.written("pay.range=0 to none", "width=4")
        self.assertIn("Width 4 keeps each number open within it by at least the least distance of any number from its ends, over 16.", said)
        self.assertNotIn("naming it here protects nothing", said)

    def test_without_an_end_there_is_nothing_to_say(self):
        said, _ = self.written("pay.range=none to none", "width=4")
        self.assertNotIn("CAREFUL: people know a range", said)
        self.assertNotIn("from the range's ends", said)

    def test_rows_that_are_added_go_by_the_schema_that_is_there(self):
        self.written("pay.range=0 to none", "width=1")
        self.choose("width=4")
        self.file.write_text("team,pay\nt0,1000\n")
        status, said = self.prepare("add", self.file, self.choices, self.out, self.folder / "longer")
        self.assertEqual(status, 0, said)
        self.assertIn("Width 1 keeps each number open within it", said)
        self.assertEqual(json.loads((self.folder / "longer" / "schema.json").read_text())["width"], 1)


if __name__ == "__main__":
    unittest.main()

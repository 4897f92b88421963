"""Numbers in bands and joined texts: tables worked out by hand, and each choice that can't be followed.

AUDITOR=.. /usr/bin/python3 -m unittest test_coarsening
"""

import json
import os
import unittest
from unittest import mock

from table_kit import TableTest

STAFF = "region,age,pay\nNorth,30,100\nSouth,39,205\nEast,40,310\nWest,58,41\n"
KINDS = ("region=text", "age=number", "pay=sum")


class Coarsening(TableTest):
    def setUp(self):
        super().setUp()
        self.enterContext(mock.patch.dict(os.environ, {"PATH": ""}))
        os.environ.pop("AUDITOR", None)

    def column_of(self, place, text, *words):
        """The cells of a column of the table, in its order."""
        said = self.made(text, *words)
        return said, [row[place] for row in self.table()[1:]]

    def test_bands_of_a_width_have_the_number_that_they_begin_with(self):
        said, ages = self.column_of(1, STAFF, *KINDS, "age.bands=10")
        self.assertEqual((self.table()[0], sorted(ages)), (["region", "age_from", "pay"], ["30", "30", "40", "50"]))
        self.assertIn("'age': public number, named age_from, in bands of 10, each named by the number that it begins with", said)
        notes = json.loads((self.out / "public/notes.json").read_text())["columns"]
        self.assertEqual(notes["age_from"], {"title": "age, in bands of 10"})

    def test_bands_begin_at_given_numbers_and_the_last_has_no_end(self):
        said, ages = self.column_of(1, STAFF, *KINDS, "age.bands=0,30,40,58")
        self.assertEqual(sorted(ages), ["30", "30", "40", "58"])
        self.assertIn("in bands from 0, 30, 40, 58", said)

    def test_a_band_goes_by_the_exact_number_also_below_0(self):
        for cells, bands, due in (
            (("39.99", "40.0", "-0.5", "-10.0"), "10", ["-10", "-10", "30", "40"]),
            (("29.99999999999999", "30.00000000000001", "0.5", "7.0"), "0,30", ["0", "0", "0", "30"]),
        ):
            with self.subTest(bands):
                self.choices.unlink(missing_ok=True)
                self.out = self.folder / bands
                text = "age,pay\n" + "".join(f"{cell},{pay}\n" for pay, cell in enumerate(cells, 5))
                self.assertEqual(sorted(self.column_of(0, text, "age=number", "pay=sum", f"age.bands={bands}")[1]), due)

    def test_a_number_below_the_first_band_is_named_by_its_row(self):
        self.assertIn("row 2, column 'age': '30': it is below the first band, which begins with 31", self.refused(STAFF, *KINDS, "age.bands=31,50"))

    def test_what_isnt_bands_is_refused(self):
        self.look(STAFF)
        for bands, due in (
            ("0", "can't be the width of bands: it is 1 or more"),
            ("-5", "can't be the width of bands"),
            ("ten", "'ten' isn't bands"),
            ("10.5", "isn't bands"),
            ("10,", "isn't bands"),
            ("٣", "isn't bands"),
            ("30,18", "each number has to be greater than the one before"),
            ("18,18", "each number has to be greater"),
            ("9" * 30, "isn't bands"),
        ):
            with self.subTest(bands):
                status, said = self.choose(f"age.bands={bands}")
                self.assertEqual(status, 1, said)
                self.assertIn(due, said)

    def test_bands_are_of_public_numbers_alone(self):
        for words, due in (
            (("age=text", "pay=sum", "age.bands=10"), "'age': \"bands\" are of public numbers, and it is text"),
            (("age=number", "pay=sum", "pay.bands=10"), "'pay': \"bands\" are of public numbers, and it is sum"),
        ):
            with self.subTest(due):
                self.choices.unlink(missing_ok=True)
                self.assertIn(due, self.refused(STAFF, "region=text", *words))

    def test_the_name_says_that_it_is_where_a_band_begins_and_no_more_once_it_isnt(self):
        self.look(STAFF)
        self.assertIn("age is named age_from: its numbers are kept in bands of 5", self.choose("age=number", "age.bands=5")[1])
        self.assertIn("age_from is named age: its numbers are kept as they are", self.choose("age_from.bands=none")[1])
        self.assertEqual(self.column("age")["bands"], None)

    def test_bands_take_the_place_of_a_factor(self):
        self.look("age,pay\n30.25,5\n41.5,7\n")
        self.assertIn("age is named age_x100", self.choose("age=number", "pay=sum", *("protect=none", "range=none"))[1])
        self.assertIn("age_x100 is named age_from", self.choose("age_x100.bands=10")[1])
        self.assertEqual(self.make()[0], 0)
        self.assertEqual([row[0] for row in self.table()], ["age_from", "30", "40"])

    def test_a_name_that_hides_the_bands_is_refused(self):
        self.look(STAFF)
        self.choose(*KINDS, "age.bands=10", "protect=none", "range=none")
        self.choices.write_text(self.choices.read_text().replace('"age_from"', '"age"'))
        status, said = self.make()
        self.assertEqual((status, self.out.exists()), (1, False))
        self.assertIn("name it age_from", said)

    def test_a_gap_that_is_marked_stays_0_beside_bands(self):
        self.made("age,pay\n30,5\nNA,7\n41,9\n", "age=number", "pay=sum", "age.missing=mark", "age.bands=10")
        self.assertEqual(self.table()[0], ["age_from", "age_from_known", "pay"])
        self.assertEqual(sorted(row[:2] for row in self.table()[1:]), [["0", "0"], ["30", "1"], ["40", "1"]])

    def test_whole_numbers_that_are_written_with_a_decimal_keep_their_name(self):
        said = self.look("age,weight,pay\n36.0,36.5,5.00\n41.0,41.0,7.00\n")[1]
        self.assertIn("each whole, though written with a decimal", said)
        self.choose("age=number", "weight=number", "pay=sum", "protect=none", "range=none")
        self.make()
        self.assertEqual(self.table()[:2], [["age", "weight_x10", "pay"], ["36", "365", "500"]])

    def test_values_are_joined_under_a_name(self):
        said, regions = self.column_of(0, STAFF, *KINDS, "region.join=North+East as north east", "region.join=South as south")
        self.assertEqual(sorted(regions), ["West", "north east", "north east", "south"])
        self.assertIn("2 cells joined as 'north east', 1 cell joined as 'south'", said)

    def test_all_others_are_joined(self):
        _, regions = self.column_of(0, STAFF, *KINDS, "region.join=North as North", "region.join=* as other")
        self.assertEqual(sorted(regions), ["North", "other", "other", "other"])

    def test_joined_again_adds_to_the_same_name(self):
        _, regions = self.column_of(0, STAFF, *KINDS, "region.join=North as A", "region.join=East as A")
        self.assertEqual(sorted(regions), ["A", "A", "South", "West"])

    def test_a_value_that_stands_nowhere_is_pointed_out(self):
        said = self.made(STAFF, *KINDS, "region.join=Nroth+East as A")
        self.assertIn("CAREFUL: region: no row has 'Nroth', which was to be joined", said)

    def test_a_name_that_is_a_value_by_itself_is_refused(self):
        said = self.refused(STAFF, *KINDS, "region.join=North+East as West")
        self.assertIn("row 5, column 'region': 'West' is the name of joined values: name it among them too", said)
        self.choices.unlink()
        self.assertEqual(sorted(self.column_of(0, STAFF, *KINDS, "region.join=North+East+West as West")[1]), ["South", "West", "West", "West"])

    def test_what_joins_nothing_is_refused(self):
        self.look(STAFF)
        for join in ("North+East", "+North as A", "North as ", " as A", "North+ as A"):
            with self.subTest(join):
                status, said = self.choose(f"region.join={join}")
                self.assertEqual(status, 1, said)
                self.assertIn("joins nothing: write A+B as AB", said)
        self.choose("region.join=North as A")
        self.assertIn("'North' is joined already. region.join=none begins anew", self.choose("region.join=North+East as B")[1])
        self.assertEqual(self.choose("region.join=none", "region.join=North+East as B")[0], 0)
        self.assertEqual(self.column("region")["join"], {"B": ["North", "East"]})

    def test_a_file_of_choices_with_wrong_joins_is_refused(self):
        self.look(STAFF)
        self.choose(*KINDS, "protect=none", "range=none")
        for join, due in (
            ({"A": "North"}, "has to be an object with a list of texts for each name"),
            ({"A": []}, "has to be an object with a list of texts for each name"),
            ({"A": [1]}, "has to be an object with a list of texts for each name"),
            ({"": ["North"]}, "has a name without a letter"),
            ({"A": ["North"], "B": ["North"]}, "has 'North' twice"),
            (["North"], "'join' can't be '[\"North\"]'"),
        ):
            with self.subTest(join):
                choices = self.chosen()
                choices["columns"][0]["join"] = join
                self.choices.write_text(json.dumps(choices))
                status, said = self.make()
                self.assertEqual((status, self.out.exists()), (1, False))
                self.assertIn(due, said)

    def test_numbers_arent_joined(self):
        self.assertIn("\"join\" is for public texts, and it is number", self.refused(STAFF, *KINDS, "age.join=30+39 as 30"))

    def test_a_file_of_choices_from_before_is_read(self):
        self.look(STAFF)
        self.choose(*KINDS, "protect=none", "range=none")
        choices = self.chosen()
        for column in choices["columns"]:
            del column["bands"], column["join"]
        self.choices.write_text(json.dumps(choices))
        self.assertEqual(self.make()[0], 0)


if __name__ == "__main__":
    unittest.main()

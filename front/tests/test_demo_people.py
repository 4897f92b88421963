"""The table of the demo whose rows stand for people. AUDITOR=.. /usr/bin/python3 -m unittest test_demo_people"""

import collections
import csv
import json
import unittest

from lines_kit import LinesTest

import demo_people


class DemoPeople(LinesTest):
    def test_its_lines_are_its_people_and_fit_a_table(self):
        said, everyone = demo_people.write(self.out, 20_000), list(demo_people.people(20_000))
        due = collections.Counter((region, sector, age // 10 * 10) for region, sector, age, _, _ in everyone)
        with open(self.out / "table.csv", newline="") as file:
            lines = list(csv.DictReader(file))
        self.assertEqual({(line["region"], line["sector"], int(line["age_from"])): int(line["people"]) for line in lines}, due)
        self.assertEqual(sum(int(line["wage"]) for line in lines), sum(row[3] for row in everyone))
        self.assertRegex(said, r"^20,000 people in \d+ rows: \d+ of one person")
        self.assertIn(1, due.values())

    def test_all_of_them_fit_and_some_are_alone(self):
        sizes = collections.Counter((region, sector, age // 10) for region, sector, age, _, _ in demo_people.people(demo_people.PEOPLE))
        self.assertEqual(sum(sizes.values()), 100_000)
        self.assertLessEqual(len(sizes), 4096)
        self.assertIn(1, sizes.values())

    def test_the_public_folder_has_no_secret(self):
        demo_people.write(self.out, 3000)
        self.assertEqual((self.out / "public/table.csv").read_text().splitlines()[0], "region,sector,age_from,people")
        self.assertEqual((self.out / "public/schema.json").read_bytes(), (self.out / "schema.json").read_bytes())
        self.assertEqual(json.loads((self.out / "public/notes.json").read_text())["columns"]["age_from"], {"title": "age, in bands of 10"})


if __name__ == "__main__":
    unittest.main()

"""Rows at the end of a table that prepare.py made before. AUDITOR=.. /usr/bin/python3 -m unittest test_adding"""

import json
import os
import stat
import subprocess
import unittest
from unittest import mock

from table_kit import AUDITOR, TableTest, needs_program

STAFF = "team,age,salary\nQA,30,100\nQA,41,205\nDEV,41,310\n"
KINDS = ("team=text", "age=number", "salary=sum", "wave=1")
MORE = 'team,age,salary\n"Ops, Ü",29,999\n QA ,50,120\n'


class Adding(TableTest):
    def setUp(self):
        super().setUp()
        self.longer = self.folder / "longer"
        with mock.patch.dict(os.environ, {"PATH": ""}):
            os.environ.pop("AUDITOR", None)
            self.made(STAFF, *KINDS)

    def add(self, text, to=None, old=None):
        """What `add` says of a file with this text."""
        self.file.write_text(text, encoding="utf-8")
        with mock.patch.dict(os.environ, {"PATH": ""}):
            os.environ.pop("AUDITOR", None)
            return self.prepare("add", self.file, self.choices, old or self.out, to or self.longer)

    def refused(self, text, due, old=None):
        before = self.names()
        status, said = self.add(text, old=old)
        self.assertEqual((status, self.names()), (1, before), said)
        self.assertIn(due, said)

    def test_the_rows_stand_after_those_that_were_there(self):
        status, said = self.add(MORE)
        self.assertEqual(status, 0, said)
        for where, lines in ((".", "\"Ops, Ü\",29,999,2\r\nQA,50,120,2\r\n"), ("public", '"Ops, Ü",29,2\r\nQA,50,2\r\n')):
            before = (self.out / where / "table.csv").read_bytes()
            self.assertEqual((self.longer / where / "table.csv").read_bytes(), before + lines.encode())
            for name in ("schema.json",) + (("notes.json",) if where == "public" else ()):
                self.assertEqual((self.longer / where / name).read_bytes(), (self.out / where / name).read_bytes())
        self.assertEqual(stat.S_IMODE((self.longer / "table.csv").stat().st_mode), 0o600)
        self.assertIn("added: 2 rows after 3 rows, of wave 2\n", said)
        self.assertIn("then auditor grow there, once", said)
        self.assertNotIn("CAREFUL: no public number", said)

    def test_rows_that_come_stand_by_their_public_cells_and_those_before_as_they_were(self):
        before = (self.out / "table.csv").read_bytes()
        said = self.add("team,age,salary\nQA,50,1\nQA,9,2\n" + "".join(f"DEV,30,{pay}\n" for pay in range(100, 140)))[1]
        added = (self.longer / "table.csv").read_bytes().removeprefix(before).decode().splitlines()
        self.assertEqual(added[-2:], ["QA,9,2,2", "QA,50,1,2"])
        self.assertEqual(sorted(added[:-2]), [f"DEV,30,{pay},2" for pay in range(100, 140)])
        self.assertNotEqual(added[:-2], sorted(added[:-2]))
        self.assertIn("rows: in the order of their public cells, those that are alike by chance", said)

    def test_look_says_what_it_takes_to_add_rows_later(self):
        self.choices.unlink()
        self.assertIn("rows may be added later: choose wave=1", self.prepare("look", "--more")[1])

    def test_each_time_the_rows_are_of_the_next_wave(self):
        self.add(MORE)
        status, said = self.add(STAFF, self.folder / "longest", self.longer)
        self.assertEqual(status, 0, said)
        rows = (self.folder / "longest" / "public" / "table.csv").read_text().splitlines()
        self.assertEqual([row.rsplit(",", 1)[1] for row in rows], ["wave", "1", "1", "1", "2", "2", "3", "3", "3"])

    def test_a_table_without_an_end_of_its_last_line_gets_one(self):
        for where in (".", "public"):
            path = self.out / where / "table.csv"
            path.write_bytes(path.read_bytes().rstrip())
        self.assertEqual(self.add(MORE)[0], 0)
        self.assertEqual(len((self.longer / "table.csv").read_text().splitlines()), 6)

    def test_without_a_number_that_tells_the_rows_apart_it_says_so(self):
        self.choices.unlink()
        subprocess.run(["rm", "-r", self.out], check=True)
        with mock.patch.dict(os.environ, {"PATH": ""}):
            os.environ.pop("AUDITOR", None)
            self.made(STAFF, *KINDS[:3])
        self.assertIn("CAREFUL: no public number is greater in each new row", self.add(MORE)[1])
        said = self.add(MORE.replace("29", "42"), self.folder / "other")[1]
        self.assertNotIn("CAREFUL: no public number", said)
        self.assertIn("added: 2 rows after 3 rows\n", said)

    def test_totals_are_said_over_all_rows(self):
        for where in (".", "public"):
            path = self.out / where / "schema.json"
            path.write_text(json.dumps({**json.loads(path.read_text()), "protect": [{"column": "salary", "where": "team = 'QA'"}]}))
        self.assertIn("protected: the total of salary where team = 'QA', over 3 of 5 rows", self.add(MORE)[1])

    def test_what_doesnt_fit_is_refused_and_leaves_nothing(self):
        for text, due in (
            (MORE.replace("age", "old"), "aren't those that the choices were made for"),
            (MORE.replace("999", "many"), "row 2, column 'salary': 'many' isn't a number"),
            ("team,age,salary\n", "the file has a header and no row"),
            ("team,age,salary\n" + "QA,30,5\n" * 4094, "there would be 4,097 rows, and a table has at most 4,096"),
        ):
            with self.subTest(due):
                self.refused(text, due)
        self.choices.write_text(self.choices.read_text().replace('"salary"', '"pay"').replace('"from": "pay"', '"from": "salary"'))
        self.refused(MORE, "the choices give other columns than")

    def test_a_folder_that_make_didnt_write_is_refused(self):
        self.refused(MORE, "has no schema.json: it isn't a folder that make wrote", self.folder)
        (self.out / "public" / "table.csv").rename(self.out / "away")
        self.refused(MORE, "has no public/table.csv")
        (self.out / "away").rename(self.out / "public" / "table.csv")
        (self.out / "table.csv").write_text("team,age,salary,wave\nQA,30\n")
        self.refused(MORE, "isn't a table of its schema")
        (self.out / "schema.json").write_text("[]")
        self.refused(MORE, "isn't a schema")

    def test_nothing_is_overwritten(self):
        self.longer.mkdir()
        self.refused(MORE, "is already there, and nothing is overwritten")

    def test_a_stop_while_it_writes_leaves_nothing(self):
        self.file.write_text(MORE)
        before = self.names()
        for name in ("preparing.adding.write_longer", "preparing.adding.try_program", "os.rename"):
            for stop in (KeyboardInterrupt, OSError(28, "No space left on device"), MemoryError):
                with self.subTest(f"{name}, {stop}"), mock.patch(name, side_effect=stop):
                    self.assertEqual(self.prepare("add", self.file, self.choices, self.out, self.longer)[0], 1)
                    self.assertEqual(self.names(), before)

    @needs_program
    def test_the_program_takes_the_longer_table(self):
        self.file.write_text(MORE)
        with mock.patch.dict(os.environ, {"AUDITOR": AUDITOR}):
            status, said = self.prepare("add", self.file, self.choices, self.out, self.longer)
        self.assertEqual(status, 0, said)
        self.assertNotIn("not tried", said)
        subprocess.run([AUDITOR, "init"], cwd=self.longer, check=True)
        question = b'{"ask":"sum","column":"salary","where":"wave <= 2"}\n'
        run = subprocess.run([AUDITOR, "serve"], cwd=self.longer, input=question, capture_output=True, check=True)
        self.assertEqual(run.stdout, b'{"sum":1734}\n')


if __name__ == "__main__":
    unittest.main()

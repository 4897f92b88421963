"""A table that lives: prepare.py make with a key, and renew. AUDITOR=.. /usr/bin/python3 -m unittest test_renewing"""

import csv
import json
import os
import shutil
import stat
import subprocess
import unittest
from unittest import mock

from table_kit import AUDITOR, TableTest, needs_program  # it finds the folder of preparing

from preparing import keys, renewing

OCTOBER = (
    "id,team,age,salary\na1,QA,30,100\na2,QA,41,200\na3,OPS,35,300\na4,OPS,50,400\na5,DEV,44,500\na6,DEV,52,600\n"
)
# In the order of their public cells, as make writes them.
ROWS = ["DEV,44,500,1", "DEV,52,600,1", "OPS,35,300,1", "OPS,50,400,1", "QA,30,100,1", "QA,41,200,1"]
KEYS = ["a5", "a6", "a3", "a4", "a1", "a2"]
KINDS = ("id=leave out", "team=text", "age=number", "salary=sum", "protect=none", "range=none", "missing=drop the row")


def with_lines(text, *taken_out, **lines):
    """The file with other lines for these keys, and new ones at its end; some are taken out."""
    header, *there = text.splitlines()
    by_key = {line.split(",")[0]: line for line in there} | lines
    return "\n".join([header, *(line for key, line in by_key.items() if key not in taken_out)]) + "\n"


class RenewingTest(TableTest):
    """A folder of six people, made with a key and without the program."""

    def setUp(self):
        super().setUp()
        self.new, self.newer = self.folder / "new", self.folder / "newer"
        self.begin(OCTOBER, *KINDS)

    def begin(self, text, *kinds, due=0):
        with without_program():
            self.choices.unlink(missing_ok=True)
            self.look(text)
            self.assertEqual(self.choose(*kinds)[0], 0)
            shutil.rmtree(self.out, ignore_errors=True)
            status, said = self.prepare("make", self.file, self.choices, self.out, "key=id")
        self.assertEqual(status, due, said)
        return said

    def renew(self, text, *meant, old=None, to=None, key="id"):
        """What renew says of an export with this text; it has to succeed."""
        status, said = self.tried(text, *meant, old=old, to=to, key=key)
        self.assertEqual(status, 0, said)
        return said

    def tried(self, text, *meant, old=None, to=None, key="id"):
        self.file.write_text(text, encoding="utf-8")
        with without_program():
            return self.prepare("renew", self.file, self.choices, old or self.out, to or self.new, f"key={key}", *meant)

    def refused(self, text, due, *meant, **places):
        before = self.names()
        status, said = self.tried(text, *meant, **places)
        self.assertEqual((status, self.names()), (1, before), said)
        self.assertIn(due, said)

    def rows(self, folder=None):
        with open((folder or self.new) / "table.csv", encoding="utf-8", newline="") as file:
            return [",".join(row) for row in csv.reader(file)][1:]

    def keys(self, folder=None):
        with open((folder or self.new) / "keys.csv", encoding="utf-8", newline="") as file:
            return list(csv.reader(file))


def without_program():
    names = {name: value for name, value in os.environ.items() if name != "AUDITOR"}
    return mock.patch.dict(os.environ, {**names, "PATH": ""}, clear=True)


class Made(RenewingTest):
    def test_the_key_stays_outside_and_everybody_is_current(self):
        self.assertEqual(self.rows(self.out), ROWS)
        self.assertEqual(self.keys(self.out), [["row", "key"], *([str(row), key] for row, key in enumerate(KEYS))])
        schema = json.loads((self.out / "schema.json").read_text())
        self.assertEqual((schema["only"], schema["columns"][-1]), ("current = 1", {"name": "current", "is": "number"}))
        for name in ("table.csv", "keys.csv"):
            self.assertEqual(stat.S_IMODE((self.out / name).stat().st_mode), 0o600)
        self.assertEqual(sorted(path.name for path in (self.out / "public").iterdir()), ["notes.json", "schema.json", "table.csv"])
        for path in (self.out / "table.csv", *(self.out / "public").iterdir()):
            self.assertNotIn("a1", path.read_text())

    def test_what_cant_have_a_key(self):
        for text, due, kinds in (
            (OCTOBER.replace("a2,", "a1,"), "row 3 has the 'id' of row 2: 'a1'", KINDS),
            (OCTOBER.replace("a2,", " ,"), "row 3 has no 'id'", KINDS),
            (OCTOBER.replace("a2,", "A1,"), "a letter alone:\n'a1' and 'A1'", KINDS),
            (OCTOBER, "a key stays outside of the table", (*KINDS, "id=text")),
            (OCTOBER.replace("id,", "nr,"), "no column is called 'id'", ("nr=leave out", *KINDS[1:])),
            (OCTOBER.replace("team", "current"), "two columns would have one name: current", ("current=text", *KINDS[:1], *KINDS[2:])),
            (OCTOBER, "a table with a key isn't split", (*KINDS, "split by=team")),
            (OCTOBER, "a table with a key has no wave", (*KINDS, "wave=1")),
        ):
            with self.subTest(due=due):
                self.assertIn(due, self.begin(text, *kinds, due=1))
                self.assertFalse(self.out.exists())

    def test_look_says_that_a_table_may_be_renewed(self):
        self.choices.unlink()
        self.assertIn("make the table with key=TITLE", self.prepare("look", "--more")[1])

    def test_two_columns_of_one_title_are_no_key(self):
        with self.assertRaisesRegex(renewing.Fault, "two columns are called 'id'"):
            keys.place_of_key(["id", "pay", "id"], {"columns": []}, "id")

    def test_a_table_without_a_key_is_as_ever(self):
        shutil.rmtree(self.out)
        self.choices.unlink()
        self.made(OCTOBER, *KINDS)
        self.assertEqual(sorted(path.name for path in self.out.iterdir()), ["public", "schema.json", "table.csv"])
        self.assertEqual(list(json.loads((self.out / "schema.json").read_text())), ["columns"])
        self.refused(OCTOBER, "has no keys.csv: it isn't a folder that make wrote with key=TITLE, or renew")


class Renewing(RenewingTest):
    def test_nothing_changed(self):
        said = self.renew(OCTOBER)
        for name in ("table.csv", "keys.csv", "schema.json", "public/table.csv", "public/schema.json", "public/notes.json"):
            self.assertEqual((self.new / name).read_bytes(), (self.out / name).read_bytes(), name)
        self.assertEqual(stat.S_IMODE((self.new / "keys.csv").stat().st_mode), 0o600)
        self.assertEqual(stat.S_IMODE((self.new / "table.csv").stat().st_mode), 0o600)
        self.assertIn("people: 6 now; 0 came, 0 left, 0 came back, 0 with another number\n", said)
        self.assertIn("rows: 0 new ones at the end; 6 of 4,096 are taken, 0 of them no longer current\n", said)
        self.assertNotIn("auditor grow", said)
        self.assertNotIn("current is public", said)
        self.assertNotIn("two rows", said)

    def test_the_order_of_the_export_is_free(self):
        header, *lines = OCTOBER.splitlines()
        self.renew("\n".join([header, *reversed(lines)]) + "\n")
        self.assertEqual(self.rows(), ROWS)

    def test_who_moves_stays_in_her_row(self):
        said = self.renew(with_lines(OCTOBER, a1="a1,OPS,31,100"))
        self.assertEqual(self.rows(), [*ROWS[:4], "OPS,31,100,1", ROWS[5]])
        self.assertIn("team: another value for 1 person\n", said)
        self.assertNotIn("auditor grow", said)

    def test_who_leaves_stays_with_her_number_and_isnt_current(self):
        said = self.renew(with_lines(OCTOBER, "a4"))
        self.assertEqual(self.rows(), [*ROWS[:3], "OPS,50,400,0", *ROWS[4:]])
        self.assertEqual([key for _, key in self.keys()[1:]], KEYS)
        self.assertIn("people: 5 now; 0 came, 1 left", said)
        self.assertIn("CAREFUL: current is public", said)
        self.assertNotIn("two rows", said)

    def test_who_comes_stands_at_the_end(self):
        said = self.renew(with_lines(OCTOBER, a7="a7,QA,22,700", a8="a8,DEV,28,800"))
        self.assertEqual(self.rows(), [*ROWS, "DEV,28,800,1", "QA,22,700,1"])
        self.assertEqual([key for _, key in self.keys()[1:]], [*KEYS, "a8", "a7"])
        self.assertIn("rows: 2 new ones at the end, in the order of their public cells", said)
        self.assertIn(f"auditor grow in {self.out}, once;", said)

    def test_those_who_come_stand_by_their_public_cells_and_else_by_chance(self):
        more = {f"b{pay}": f"b{pay},DEV,30,{pay}" for pay in range(700, 740)}
        self.renew(with_lines(OCTOBER, **more, a9="a9,DEV,29,9"))
        added = self.rows()[6:]
        self.assertEqual(added[0], "DEV,29,9,1")
        self.assertEqual(sorted(added[1:]), [f"DEV,30,{pay},1" for pay in range(700, 740)])
        self.assertNotEqual(added[1:], sorted(added[1:]))
        self.assertEqual([f"DEV,30,{key[1:]},1" for _, key in self.keys()[8:]], added[1:])

    def test_another_number_gets_another_row(self):
        said = self.renew(with_lines(OCTOBER, a6="a6,DEV,53,650"))
        self.assertEqual(self.rows(), [ROWS[0], "DEV,52,600,0", *ROWS[2:], "DEV,53,650,1"])
        self.assertEqual(self.keys()[2], ["1", "a6"])
        self.assertEqual(self.keys()[7:], [["6", "a6"]])
        self.assertIn("CAREFUL: one person's number changed, and two rows of one person tell of each other", said)
        self.assertIn("everybody sees who came and left, whose number changed and when, and whose didn't", said)

    def test_two_rows_are_guarded_where_askers_are_in_the_table(self):
        for where in ("", "public/"):
            path = self.out / f"{where}schema.json"
            path.write_text(json.dumps({**json.loads(path.read_text()), "askers": "inside"}))
        said = self.renew(with_lines(OCTOBER, a6="a6,DEV,53,650"))
        self.assertNotIn("two rows of one person", said)
        self.assertIn("current is public", said)

    def test_a_number_that_comes_back_goes_to_its_row(self):
        self.renew(with_lines(OCTOBER, a6="a6,DEV,53,650"))
        said = self.renew(OCTOBER, old=self.new, to=self.newer)
        self.assertEqual(self.rows(self.newer), [*ROWS, "DEV,53,650,0"])
        self.assertIn("1 with another number\n", said)
        self.assertIn("rows: 0 new ones", said)

    def test_who_comes_back_gets_her_row_if_she_has_its_number(self):
        self.renew(with_lines(OCTOBER, "a4"))
        said = self.renew(OCTOBER, old=self.new, to=self.newer)
        self.assertEqual(self.rows(self.newer), ROWS)
        self.assertIn("0 came, 0 left, 1 came back, 0 with another number", said)
        shutil.rmtree(self.newer)
        self.renew(with_lines(OCTOBER, a4="a4,OPS,51,450"), old=self.new, to=self.newer)
        self.assertEqual(self.rows(self.newer), [*ROWS[:3], "OPS,50,400,0", *ROWS[4:], "OPS,51,450,1"])

    def test_one_person_may_have_more_than_two_rows(self):
        self.renew(with_lines(OCTOBER, a6="a6,DEV,53,650"))
        self.renew(with_lines(OCTOBER, a6="a6,DEV,54,700"), old=self.new, to=self.newer)
        self.renew(with_lines(OCTOBER, a6="a6,DEV,55,650"), old=self.newer, to=self.folder / "newest")
        self.assertEqual(self.rows(self.folder / "newest"), [ROWS[0], "DEV,52,600,0", *ROWS[2:], "DEV,55,650,1", "DEV,54,700,0"])

    def test_numbers_may_wait_for_a_day_on_which_all_change(self):
        said = self.renew(with_lines(OCTOBER, a6="a6,OPS,53,650", a7="a7,QA,22,700"), "numbers=later")
        self.assertEqual(self.rows(), [ROWS[0], "OPS,53,600,1", *ROWS[2:], "QA,22,700,1"])
        self.assertIn("1 with another number, and keep the earlier one", said)
        self.assertNotIn("two rows of one person", said)
        self.renew(with_lines(OCTOBER, a6="a6,OPS,53,650", a7="a7,QA,22,700"), old=self.new, to=self.newer)
        self.assertEqual(self.rows(self.newer), [ROWS[0], "OPS,53,600,0", *ROWS[2:], "QA,22,700,1", "OPS,53,650,1"])

    def test_raises_by_one_rate_are_pointed_out(self):
        for text, due in (
            (with_lines(OCTOBER, a5="a5,DEV,44,550", a6="a6,DEV,52,660"), "each salary that changed is 11/10 times what it was"),
            (with_lines(OCTOBER, a4="a4,OPS,50,407", a5="a5,DEV,44,507", a6="a6,DEV,52,607"), "each salary that changed is what it was plus 7:"),
        ):
            self.assertIn(due, self.renew(text, "many=changed"))
            shutil.rmtree(self.new)
        self.assertNotIn("each salary", self.renew(with_lines(OCTOBER, a5="a5,DEV,44,550", a6="a6,DEV,52,661"), "many=changed"))

    def test_a_public_column_may_come_and_go(self):
        seats = OCTOBER.replace(",age,", ",seat,")
        self.choices.unlink()
        self.look(seats)
        self.choose("id=leave out", "team=text", "seat=number", "salary=sum", "protect=none", "range=none", "missing=drop the row")
        said = self.renew(with_lines(seats, "a4"))
        self.assertEqual(self.rows(), [*ROWS[:3], "OPS,0,400,0", *ROWS[4:]])
        self.assertIn("seat: a new column, with 0 in the rows of those who aren't in the file\n", said)
        self.assertIn("age: no longer a column\n", said)

    def test_a_number_that_becomes_a_text_is_a_new_column(self):
        self.choose("age=text", "age.missing=keep")
        said = self.renew(with_lines(OCTOBER, "a4"))
        self.assertEqual(self.rows()[3], "OPS,,400,0")
        self.assertIn("age: a new column, with nothing in the rows", said)

    def test_what_else_the_schema_says_stays(self):
        path = self.out / "schema.json"
        path.write_text(json.dumps({**json.loads(path.read_text()), "width": 4, "reach": 50, "only": "current = 1 and age < 99"}))
        self.choose("protect=salary where team = 'QA'")
        said = self.renew(OCTOBER)
        schema = json.loads((self.new / "schema.json").read_text())
        self.assertEqual((schema["width"], schema["reach"], schema["only"]), (4, 50, "current = 1 and age < 99"))
        self.assertEqual(schema["protect"], [{"column": "salary", "where": "team = 'QA'"}])
        self.assertIn("CAREFUL: the total of salary where team = 'QA' is protected from now on: if answers have fixed it", said)
        self.choose("protect=none")
        said = self.renew(OCTOBER, old=self.new, to=self.newer)
        self.assertIn("CAREFUL: the total of salary where team = 'QA' is no longer protected, so it may be answered", said)

    def test_a_protected_total_is_over_those_who_are_there(self):
        self.choose("protect=salary where team = 'OPS'")
        said = self.renew(with_lines(OCTOBER, "a4"))
        self.assertIn("protected: the total of salary where team = 'OPS', over 1 of 5 rows", said)

    def test_whose_number_is_missing_counts_as_not_there(self):
        self.begin(OCTOBER, *KINDS, "salary.missing is=", "salary.missing=drop the row")
        said = self.renew(with_lines(OCTOBER, a4="a4,OPS,50,", a7="a7,QA,22,"))
        self.assertEqual(self.rows(), [*ROWS[:3], "OPS,50,400,0", *ROWS[4:]])
        self.assertIn("CAREFUL: 2 people of the file were dropped, and count as not there", said)

    def test_somebody_of_whom_everything_is_another_is_pointed_out(self):
        said = self.renew(with_lines(OCTOBER, a6="a6,QA,19,150"))
        self.assertIn("CAREFUL: of 1 person everything is other than it was", said)
        self.assertIn("with the header as row 1: 7\n", said)

    def test_keys_are_written_as_they_are(self):
        odd = with_lines(OCTOBER, 'a7', **{"0": '"Ä, ""b""",QA,22,700'})
        self.renew(odd)
        self.assertEqual(self.keys()[7], ["6", 'Ä, "b"'])
        self.renew(odd, old=self.new, to=self.newer)
        self.assertEqual(self.rows(self.newer), self.rows())

    def test_a_key_that_was_taken_out_is_nobodys(self):
        self.renew(with_lines(OCTOBER, "a4"))
        keys_file = self.new / "keys.csv"
        keys_file.write_text(keys_file.read_text().replace("3,a4", "3,"))
        self.renew(OCTOBER, old=self.new, to=self.newer)
        self.assertEqual(self.rows(self.newer), [*ROWS[:3], "OPS,50,400,0", *ROWS[4:], "OPS,50,400,1"])


class Refused(RenewingTest):
    def test_exports_that_cant_be_meant(self):
        for text, due in (
            (with_lines(OCTOBER, a6="a5,DEV,52,600"), "row 7 has the 'id' of row 6: 'a5'"),
            (with_lines(OCTOBER, a6=",DEV,52,600"), "row 7 has no 'id'"),
            (with_lines(OCTOBER, a6="A6,DEV,52,600"), "a letter alone:\n'a6' and 'A6'"),
            (with_lines(OCTOBER, a6="0a6,DEV,52,600"), "a letter alone:\n'a6' and '0a6'"),
            (with_lines(OCTOBER, a6="a 6,DEV,52,600"), "a letter alone:\n'a6' and 'a 6'"),
            (with_lines(OCTOBER, a6="ａ6,DEV,52,600"), "a letter alone:\n'a6' and 'ａ6'"),
            (with_lines(OCTOBER, "a5", "a6"), "2 of 6 people left: is it the right file? If that is meant, add many=left"),
            (with_lines(OCTOBER, a5="a5,DEV,44,501", a6="a6,DEV,52,602"), "2 of 6 people have other numbers: is it the right file? If that is"),
            (OCTOBER.replace("a6,DEV,52,600", "a6,DEV,52,6oo"), "row 7, column 'salary': '6oo' isn't a number"),
            (OCTOBER.replace("id,team", "id,dept"), "aren't those that the choices were made for"),
            (OCTOBER.replace("salary", "salary,salary"), "the header has 5"),
        ):
            with self.subTest(due=due):
                self.refused(text, due)

    def test_what_is_meant_is_done(self):
        self.renew(with_lines(OCTOBER, "a5", "a6"), "many=left")
        self.renew(with_lines(OCTOBER, a5="a5,DEV,44,501", a6="a6,DEV,52,602"), "many=changed", to=self.newer)
        self.refused(OCTOBER, "'many=more' isn't an option of renew", "many=more", to=self.folder / "newest")

    def test_nobody_would_be_current(self):
        self.begin(OCTOBER, *KINDS, "salary.missing is=-", "salary.missing=drop the row")
        self.refused("id,team,age,salary\na1,QA,30,-\n", "no row is left: 1 row dropped", "many=left")
        self.refused("id,team,age,salary\n", "the file has a header and no row", "many=left")

    def test_another_unit_is_seen(self):
        text = OCTOBER.replace("00\n", "0000\n")
        self.refused(text, "each salary that changed is 100 times what it was: in another unit? If it is the same one, add unit=same", "many=changed")
        self.refused(text, "in another unit?", "many=changed", "numbers=later")
        self.renew(text, "many=changed", "unit=same")

    def test_other_decimals_and_another_unit_are_refused(self):
        self.choose("salary.decimals=2")
        self.refused(OCTOBER, "salary is kept with 0 decimals and no unit, and the choices say 2 decimals and no unit: every number")
        self.choose("salary.decimals=0", "salary.unit=EUR")
        self.refused(OCTOBER, "and the choices say 0 decimals and the unit EUR")

    def test_the_key_stays_outside(self):
        self.choose("id=text")
        self.refused(OCTOBER, "a key stays outside of the table")
        self.refused(OCTOBER, "no column is called 'nr', to know people again by: there are 'id', 'team', 'age', 'salary'", key="nr")

    def test_keys_that_arent_those_of_the_table(self):
        keys_file = self.out / "keys.csv"
        text = keys_file.read_text()
        due = "isn't a list of the keys of all 6 rows in their order: row,key and a line for each row, from 0 on"
        for wrong in (text.rsplit("\n", 2)[0] + "\n", text + "6,a9\n", text.replace("3,a4", "4,a4"), text.replace("row,key", "key,row"), "",
                      "row,key\n", text.replace("3,a4", "3,a4,x"), text.replace("3,a4", '3,"a4'), text + "\x00"):
            with self.subTest(wrong=wrong):
                keys_file.write_text(wrong)
                self.refused(OCTOBER, due)
        keys_file.write_bytes(b"row,key\n0,\xff\n")
        self.refused(OCTOBER, due)
        keys_file.unlink()
        self.refused(OCTOBER, "has no keys.csv")

    def test_a_folder_that_was_changed_by_hand(self):
        keys_file, table = self.out / "keys.csv", self.out / "table.csv"
        keys_text, text = keys_file.read_text(), table.read_text()
        for wrong_keys, wrong, due in (
            (keys_text.replace("3,a4", "3,a3"), text, "rows 2 and 3, counted from 0, are both current, and both of 'a3'"),
            (keys_text.replace("3,a4", "3,"), text, "row 3, counted from 0, is current and has no key"),
            (keys_text, text.replace("400,1", "400,2"), "current is 2 in row 3, counted from 0, and has to be 0 or 1"),
            (keys_text, text.replace("400,1", "4x0,1"), "table.csv isn't a table of its schema"),
            (keys_text, text.replace("team,age", "age,team"), "table.csv isn't a table of its schema"),
        ):
            with self.subTest(due=due):
                keys_file.write_text(wrong_keys)
                table.write_text(wrong)
                self.refused(OCTOBER, due)
        keys_file.write_text(keys_text)
        table.write_text(text)
        for name, wrong in (("schema.json", "{}"), ("schema.json", "["), ("schema.json", '{"columns":[5]}'), ("public/notes.json", "[]")):
            good = (self.out / name).read_text()
            (self.out / name).write_text(wrong)
            self.refused(OCTOBER, "schema.json or public/notes.json isn't what make or renew wrote")
            (self.out / name).write_text(good)

    def test_other_secret_columns_are_refused(self):
        dropped = "age.missing=drop the row"
        for words in (("salary=max",), ("salary=sum", "age=sum", dropped), ("salary=number", "age=sum", dropped)):
            with self.subTest(words=words):
                self.assertEqual(self.choose(*words, "range=none")[0], 0)
                self.refused(OCTOBER, "the secret columns have to be those that the journal is for, in their order: salary sum. A new one")

    def test_a_folder_without_the_column_current(self):
        schema = json.loads((self.out / "schema.json").read_text())
        schema["columns"] = schema["columns"][:-1]
        (self.out / "schema.json").write_text(json.dumps(schema))
        self.refused(OCTOBER, "has no public number current: make it anew with key=TITLE")

    def test_of_two_numbers_of_a_person_one_changed(self):
        both = "id,team,salary,hours\na1,QA,100,7\na2,QA,200,5\na3,OPS,300,9\na4,OPS,400,2\na5,DEV,500,4\na6,DEV,600,1\n"
        self.begin(both, "id=leave out", "team=text", "salary=sum", "hours=sum", "protect=none", "range=none", "missing=drop the row")
        self.refused(with_lines(both, a6="a6,DEV,650,1"), "'a6' has another number, and hours as in row")
        self.renew(with_lines(both, a6="a6,DEV,650,3"))
        # Neither may a number of an earlier row come back alone.
        self.refused(with_lines(both, a6="a6,DEV,600,8"), "'a6' has another number, and salary as in row", old=self.new, to=self.newer)

    def test_more_rows_than_a_table_has(self):
        header, text = OCTOBER.split("\n", 1)
        more = "".join(f"b{pay},DEV,{pay % 40},{pay}\n" for pay in range(1000, 5090))
        self.begin(f"{header}\n{text}{more}", *KINDS)
        due = "there would be 4,097 rows, 1 of them no longer current, and a table has at most 4,096. No row can be given up"
        self.refused(with_lines(f"{header}\n{text}{more}", "a4", c1="c1,QA,20,7"), due)

    def test_a_secret_that_follows_from_a_public_column_is_refused(self):
        text = OCTOBER.splitlines()
        text = "\n".join([text[0], *(",".join([*line.split(",")[:2], str(2 * int(line.split(",")[3])), line.split(",")[3]]) for line in text[1:])])
        self.refused(text + "\n", "age is 2 times salary in every row, and age is public")

    def test_a_number_out_of_the_range_that_people_know(self):
        self.choose("salary.range=0 to 600")
        self.refused(with_lines(OCTOBER, a6="a6,DEV,52,601"), "salary: row 7 has a number that isn't in the range '0 to 600'")

    def test_a_total_that_cant_be_protected(self):
        self.choose("protect=salary where team = 'QA'", "team=leave out")
        self.refused(OCTOBER, "the total of salary where team = 'QA' can't be protected")

    def test_what_is_there_already_and_what_isnt_there(self):
        self.new.mkdir()
        self.refused(OCTOBER, "is already there, and nothing is overwritten")
        self.refused(OCTOBER, "has no schema.json", old=self.folder / "nowhere", to=self.newer)
        self.choose("split by=team")
        self.refused(OCTOBER, "a table with a key isn't split", to=self.newer)

    def test_arguments(self):
        self.file.write_text(OCTOBER)
        for words in (("renew", self.file, self.choices, self.out, self.new), ("renew", self.file, self.choices, self.out, self.new, "id"),
                      ("make", self.file, self.choices, self.new, "id")):
            self.assertEqual(self.prepare(*words)[0], 2)

    def test_a_wrong_table_isnt_written(self):
        """The second way, before a folder is written: each of some wrong ways to put people into rows."""
        def in_place(renewal):
            renewal.rows[1] = {**renewal.rows[-1]}
            del renewal.rows[-1]

        def taken_out(renewal):
            del renewal.rows[3]

        def repeated(renewal):
            renewal.rows.append({**renewal.rows[0], "salary": 500})
            renewal.rows[0] = {**renewal.rows[0], "current": 0}

        def other_cells(renewal):
            renewal.rows[0] = {**renewal.rows[0], "team": "OPS"}

        def still_current(renewal):
            renewal.rows[3] = {**renewal.rows[3], "current": 1}

        true = renewing.renewed
        for wrong in (in_place, taken_out, repeated, other_cells, still_current):
            def renewed(*words):
                renewal = true(*words)
                wrong(renewal)
                return renewal
            with self.subTest(wrong=wrong.__name__), mock.patch.object(renewing, "renewed", renewed):
                self.refused(with_lines(OCTOBER, "a4", a6="a6,DEV,53,650"), "renew would write another table than is due, so nothing is written")


@needs_program
class OverAJournal(RenewingTest):
    """The journal goes on over what renew writes. Replies are worked out by hand."""

    def auditor(self, command, *wheres, ask="sum", ends=0):
        lines = "".join(json.dumps({"ask": ask, **({"column": "salary"} if ask != "count" else {}), "where": where}) + "\n" for where in wheres)
        run = subprocess.run([AUDITOR, command], cwd=self.place, input=lines, capture_output=True, text=True)
        self.assertEqual(run.returncode, ends, run.stderr)
        return run.stdout.splitlines()

    def put(self, folder):
        shutil.copytree(folder, self.place, dirs_exist_ok=True)

    def test_a_mover_a_leaver_a_newcomer_and_a_raise(self):
        self.place = self.folder / "place"
        self.put(self.out)
        self.auditor("init")
        self.assertEqual(self.auditor("serve", "team = 'QA'", "all"), ['{"sum":300}', '{"sum":2100}'])
        # a1 moves to OPS, a4 leaves, a6 has 650, a7 comes with 700.
        self.renew(with_lines(OCTOBER, "a4", a1="a1,OPS,31,100", a6="a6,DEV,53,650", a7="a7,QA,22,700"))
        self.put(self.new)
        self.auditor("serve", ends=10)
        self.auditor("grow")
        self.assertEqual(self.auditor("serve", "all", ask="count"), ['{"count":6}'])
        # QA is a2 and a7, OPS a1 and a3; nobody who isn't there is in any sum; a2 alone is denied, and so is DEV without a5.
        self.assertEqual(
            self.auditor("serve", "team = 'QA'", "all", "team = 'OPS'", "current = 0", "age = 41", "team = 'DEV'"),
            ['{"sum":900}', '{"sum":2450}', '{"sum":400}', '{"refused":"empty"}', '{"denied":"unsafe"}', '{"sum":1150}'],
        )
        self.assertEqual(self.auditor("audit")[-1], '{"audited":6,"columns":1,"rows":8}')

    def test_the_program_reads_what_is_written(self):
        self.file.write_text(with_lines(OCTOBER, "a4"))
        self.choose("protect=salary where team = 'QA'")
        with mock.patch.dict(os.environ, {"AUDITOR": AUDITOR}):
            status, said = self.prepare("renew", self.file, self.choices, self.out, self.new, "key=id")
        self.assertEqual(status, 0, said)
        self.assertNotIn("not tried with the program", said)


class OlderProgram(RenewingTest):
    def test_one_that_knows_no_such_key_is_said(self):
        older = self.folder / "older"
        older.write_text("#!/bin/sh\necho 'schema: fault 3' >&2\nexit 3\n")
        older.chmod(0o755)
        self.file.write_text(OCTOBER)
        before = self.names()
        with mock.patch.dict(os.environ, {"AUDITOR": str(older)}):
            status, said = self.prepare("renew", self.file, self.choices, self.out, self.new, "key=id")
        self.assertEqual((status, self.names()), (1, before))
        self.assertIn('This auditor may be older than the key "only"', said)


if __name__ == "__main__":
    unittest.main()

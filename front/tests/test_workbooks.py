"""Excel workbooks in prepare.py, and files that are no text.

/usr/bin/python3 -m unittest test_workbooks
"""

import csv
import datetime
import io
import sys
import unittest
import zipfile
from unittest import mock

import openpyxl

from table_kit import TableTest

from preparing import workbooks

STAFF = [["team", "age", "pay", "since", "part time"], ["QA", 30, 4512.26, datetime.datetime(2017, 1, 31), True],
         ["Bob's, \"x\"", 41, 3900, datetime.datetime(2018, 2, 1), False], ["QA", 52, 0.1 + 0.2, datetime.datetime(2019, 3, 2), True],
         [None, 52, 1234567.5, datetime.datetime(2020, 4, 3), None]]
TEXT = (
    'team,age,pay,since,part time\nQA,30,4512.26,2017-01-31,TRUE\n"Bob\'s, ""x""",41,3900,2018-02-01,FALSE\nQA,52,0.3,2019-03-02,TRUE\n'
    ",52,1234567.5,2020-04-03,\n"
)
KINDS = ("team=text", "age=number", "pay=sum", "since=number", "part_time=text", "team.missing=keep", "part_time.missing=keep")


def workbook(**sheets):
    """The bytes of a workbook with these rows in its sheets."""
    book, data = openpyxl.Workbook(), io.BytesIO()
    book.remove(book.active)
    for name, rows in sheets.items():
        sheet = book.create_sheet(name)
        for row in rows:
            sheet.append(row)
    book.save(data)
    return data.getvalue()


class Workbooks(TableTest):
    def setUp(self):
        super().setUp()
        self.file, self.choices = self.folder / "t.xlsx", self.folder / "t.choices.json"

    def told(self, data, *options):
        """The one sentence that is said of a file."""
        status, said = self.look(data, *options)
        self.assertEqual((status, said.count("\n"), self.choices.exists()), (1, 1, False), said)
        return said

    def test_a_sheet_is_read_as_its_csv_would_be(self):
        said = self.made(workbook(Staff=STAFF), *KINDS)
        self.assertIn("secret sum, times 100", said)
        rows = sorted(self.table()[1:])
        self.out = self.folder / "again"
        self.file, self.choices = self.folder / "t.csv", self.folder / "c.choices.json"
        self.file.write_text(TEXT)
        self.choices = self.folder / "t.choices.json"
        self.choices.unlink()
        self.made(TEXT, *KINDS)
        self.assertEqual(rows, sorted(self.table()[1:]))
        self.assertIn(["QA", "52", "30", "20190302", "TRUE"], rows)

    def test_a_workbook_is_said_to_be_one_and_is_made_again_from_its_sheet(self):
        status, said = self.look(workbook(Staff=STAFF, Empty=[]))
        self.assertEqual((status, said.splitlines()[:2]), (0, ["encoding: an Excel workbook, its sheet 'Staff'", "rows: 4"]))
        self.assertEqual(self.chosen()["encoding"], "xlsx:Staff")

    def test_one_of_several_sheets_is_named(self):
        data = workbook(Staff=STAFF, **{"Old staff": STAFF[:3]})
        self.assertIn("several sheets. Look again with one of: sheet=Staff; sheet=Old staff", self.told(data))
        self.assertIn("no sheet 'Stuff': there are 'Staff', 'Old staff'", self.told(data, "sheet=Stuff"))
        status, said = self.look(data, "sheet=Old staff")
        self.assertEqual((status, "rows: 2" in said), (0, True), said)
        self.assertIn("has nothing in it", self.told_again(workbook(Staff=[])))

    def told_again(self, data):
        self.choices.unlink()
        return self.told(data)

    def test_a_formula_without_its_value_is_named(self):
        self.assertIn("cell B3 has a formula whose value isn't in the file", self.told(workbook(Staff=[["team", "pay"], ["A", 5], ["B", "=B2+1"]])))

    def test_rows_and_columns_with_nothing_in_them_at_the_end_are_passed_over(self):
        rows = [["team", "pay", None, None], ["A", 5, None, None], ["B", 7], [None, None, None, None]]
        self.assertIn("rows: 2; 1 line with nothing in it passed over", self.look(workbook(Staff=rows))[1])

    def test_without_openpyxl_one_sentence_says_so(self):
        data = workbook(Staff=STAFF)
        with mock.patch.dict(sys.modules, {"openpyxl": None}):
            said = self.told(data)
        self.assertIn("an Excel workbook, which is read with python3-openpyxl, and that isn't installed: install it, or save the sheet as CSV", said)

    def test_files_that_are_no_text_are_said_to_be_what_they_are(self):
        packed = io.BytesIO()
        with zipfile.ZipFile(packed, "w") as file:
            file.writestr("content.xml", "x" * 1000)
        for data, words in ((b"\xd0\xcf\x11\xe0\xa1\xb1\x1a\xe1" + bytes(600), "an old Excel workbook (.xls): save it as .xlsx or as CSV"),
                            (b"$FL2@(#) SPSS", "a file of SPSS: save it as CSV"), (b"<stata_dta><header>", "a file of Stata: save it as CSV"),
                            (b"\x1f\x8b\x08\0rest", "as R's .rds is"), (b"RDX3\nX\n", "a file of R"), (b"PAR1\x15\0", "a Parquet file"), (b"%PDF-1.7", "a PDF"),
                            (packed.getvalue(), "and no .xlsx: save the table as CSV"), (b"PK\x03\x04broken", "packed, and broken"),
                            (workbook(Staff=STAFF)[:2000], "packed, and broken")):
            with self.subTest(words=words):
                self.assertIn(words, self.told(data))
        self.assertIn("packed, as a workbook is", self.told(workbook(Staff=STAFF), "encoding=cp850"))
        self.assertIn("this file is none", self.told(b"a,b\n1,2\n", "sheet=Staff"))

    def test_a_workbook_that_would_fill_the_memory_isnt_unpacked(self):
        with mock.patch.object(workbooks, "MOST_BYTES", 5000):
            self.assertIn("more than 5,000 bytes when it is unpacked", self.told(workbook(Staff=[["a", "b"]] * 3000)))
        with mock.patch.object(workbooks, "MOST_TEXT", 500):
            self.assertIn("more than 500 characters", self.told(workbook(Staff=[["team", "pay"]] * 300)))

    def test_each_kind_of_cell_is_written_as_a_spreadsheet_shows_it(self):
        for value, due in (
                (None, ""), (True, "TRUE"), (36, "36"), (36.0, "36"), (0.1 + 0.2, "0.3"), (1e-7, "1e-07"), ("#N/A", "#N/A"),
                (123456789012345.6, "123456789012346"), (datetime.datetime(2017, 1, 31, 8, 5), "2017-01-31 08:05:00"),
                (datetime.time(8, 5), "08:05:00"), (datetime.date(2017, 1, 31), "2017-01-31")):
            self.assertEqual(workbooks.cell_text(value), due)
        read = list(csv.reader(io.StringIO(workbooks.text_of(workbook(Staff=STAFF), "Staff"), newline="")))
        self.assertEqual(read[2], ["Bob's, \"x\"", "41", "3900", "2018-02-01", "FALSE"])


if __name__ == "__main__":
    unittest.main()

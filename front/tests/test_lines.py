"""Lines that stand for people: small tables worked out by hand, large ones beside a plain count, and each bad input.

AUDITOR=.. /usr/bin/python3 -m unittest test_lines
"""

import itertools
import json
import os
import random
import shutil
import stat
import subprocess
import sys
import unittest
from unittest import mock

from lines_kit import LinesTest, text_of
from table_kit import FRONT, TableTest

# Six lines by hand: QA 30 has three people, QA 41 one, DEV 30 two.
STAFF = """dept,age,pay,best,least
QA,30,100,7,-3
QA,41,205,8,5
DEV,30,310,2,9
QA,30,50,9,4
DEV,30,-10,3,9
QA,30,150,1,-8
"""
KINDS = ("dept=text", "age=number", "pay=sum", "best=max", "least=min")
LINES = "dept,age,people,pay,best,least\nDEV,30,2,300,3,9\nQA,30,3,300,9,-8\nQA,41,1,205,8,5\n"


# prepare.py, and then how much memory it took at most, in kilobytes.
MEASURED = f"""
import resource, sys
sys.path.insert(0, {str(FRONT)!r})
import prepare
status = prepare.main(sys.argv[1:])
print(resource.getrusage(resource.RUSAGE_SELF).ru_maxrss)
sys.exit(status)
"""


def drawn(number, seed=5, values=(4, 5, 30)):
    """People with a text, another one, a number, a sum and a maximum."""
    draw, (regions, sectors, ages) = random.Random(seed), values
    rows = [[f"r{draw.randrange(regions)}", f"s{draw.randrange(sectors)}", draw.randrange(20, 20 + ages), draw.randrange(-500, 100_000),
             draw.randrange(1000)] for _ in range(number)]
    return [["region", "sector", "age", "pay", "best"], *rows]


DRAWN_KINDS = ("region=text", "sector=text", "age=number", "pay=sum", "best=max")


def plain_lines(rows):
    """The lines of drawn people, counted in another way: sorted, then group by group."""
    key = lambda row: tuple(row[:3])
    lines = [["region", "sector", "age", "people", "pay", "best"]]
    for cells, group in itertools.groupby(sorted(rows[1:], key=key), key):
        group = list(group)
        lines.append([*cells, len(group), sum(row[3] for row in group), max(row[4] for row in group)])
    return [[str(cell) for cell in line] for line in lines]


class Making(LinesTest):
    def test_lines_by_hand(self):
        said = self.condensed(STAFF, *KINDS)
        self.assertEqual((self.out / "table.csv").read_text(), LINES)
        self.assertEqual((self.out / "public/table.csv").read_text(), "dept,age,people\nDEV,30,2\nQA,30,3\nQA,41,1\n")
        due = [{"name": name, "is": kind} for name, kind in
               (("dept", "text"), ("age", "number"), ("people", "count"), ("pay", "sum"), ("best", "max"), ("least", "min"))]
        for where in (self.out, self.out / "public"):
            self.assertEqual(json.loads((where / "schema.json").read_text()), {"columns": due})
        self.assertEqual(stat.S_IMODE((self.out / "table.csv").stat().st_mode), 0o600)
        self.assertIn("6 people in 3 rows: 1 of one person, 1 of two, 1 of three or more\n", said)
        self.assertIn("'best': secret max, of each row the greatest", said)
        self.assertIn("people: count, how many people a row stands for", said)

    def test_drawn_people_are_counted_as_in_another_way(self):
        for seed in range(5):
            with self.subTest(seed):
                self.choices.unlink(missing_ok=True)
                self.out = self.folder / f"out{seed}"
                rows = drawn(3000, seed)
                self.condensed(text_of(rows), *DRAWN_KINDS)
                self.assertEqual(self.table(), plain_lines(rows))

    def test_the_order_of_the_people_changes_nothing(self):
        rows = drawn(500)
        tables = []
        for turn, order in enumerate((rows[1:], rows[:0:-1], random.Random(3).sample(rows[1:], 500))):
            self.choices.unlink(missing_ok=True)
            self.out = self.folder / f"out{turn}"
            self.condensed(text_of([rows[0], *order]), *DRAWN_KINDS)
            tables.append((self.out / "table.csv").read_bytes())
        self.assertEqual(len(set(tables)), 1)

    def test_bands_and_joined_values_are_taken_before_people_are_counted(self):
        self.condensed(STAFF, *KINDS, "age.bands=20", "dept.join=QA+DEV as all")
        self.assertEqual((self.out / "table.csv").read_text(), "dept,age_from,people,pay,best,least\nall,20,5,600,9,-8\nall,40,1,205,8,5\n")

    def test_blanks_and_other_forms_of_a_number_are_one_line(self):
        self.condensed('dept,age,pay\nQA,30,5\n" QA ",030,7\nQA,+30,9\n', "dept=text", "age=number", "pay=sum")
        self.assertEqual((self.out / "table.csv").read_text(), "dept,age,people,pay\nQA,30,3,21\n")

    def test_cells_that_differ_by_case_stay_apart(self):
        self.condensed("dept,pay\nQA,5\nqa,7\nQ\u00c4,9\nQA\u0308,11\nqa,3\n", "dept=text", "pay=sum")
        self.assertEqual((self.out / "table.csv").read_text(), "dept,people,pay\nQA,1,5\nQA\u0308,1,11\nQ\u00c4,1,9\nqa,2,10\n")

    def test_decimals_are_added_exactly(self):
        cells = ["0.1"] * 10 + ["1,000.25", "-7.5", "12", "+3.00", "1e1"]
        self.condensed("dept;pay\n" + "".join(f"QA;{cell}\n" for cell in cells), "dept=text", "pay=sum", "pay.written as=1,234.5")
        self.assertEqual((self.out / "table.csv").read_text(), "dept,people,pay\nQA,15,101875\n")

    def test_people_who_lack_something_are_in_no_line_and_counted(self):
        said = self.condensed("dept,age,pay\nQA,30,5\nQA,NA,7\nQA,30,NA\nQA,30,9\n", "dept=text", "age=number", "pay=sum", "missing=drop the row")
        self.assertEqual((self.out / "table.csv").read_text(), "dept,age,people,pay\nQA,30,2,14\n")
        self.assertIn("dropped 2 rows of 4, for what they lack: 'age' 1, 'pay' 1. In the file, with the header as row 1: 3, 4", said)

    def test_a_cell_of_digits_may_mean_that_nothing_is_known(self):
        self.chosen_for("dept,pay\nQA,5\nQA,999\nQA,7\n", "dept=text", "pay=sum", "pay.missing is=999", "pay.missing=drop the row")
        self.assertEqual(self.make()[0], 0)
        self.assertEqual((self.out / "table.csv").read_text(), "dept,people,pay\nQA,2,12\n")

    def test_a_marked_gap_and_an_empty_text_are_cells_as_others(self):
        self.condensed('dept,age,pay\nQA,,5\n"",0,7\nQA,,9\n', "dept=text", "dept.missing=keep", "age=number", "age.missing=mark", "pay=sum")
        self.assertEqual((self.out / "table.csv").read_text(), 'dept,age,age_known,people,pay\n"",0,1,1,7\nQA,0,0,2,14\n')

    def test_lines_with_nothing_in_them_are_passed_over(self):
        said = self.condensed("dept,pay\n\nQA,5\n,\nQA,7\n , \n", "dept=text", "dept.missing=keep", "pay=sum")
        self.assertEqual((self.out / "table.csv").read_text(), "dept,people,pay\nQA,2,12\n")
        self.assertIn("passed over: 3 lines with nothing in it", said)

    def test_changed_cells_are_counted_for_each_person(self):
        said = self.condensed("dept,h,pay\n QA ,1.5,5\n QA ,1.5,7\nQA,2.5,9\n", "dept=text", "h=number", "h.decimals=0", "h.rounded=down", "pay=sum")
        self.assertIn("'dept': public text, 2 cells without the blanks around it", said)
        self.assertIn("3 cells rounded down", said)

    def test_no_public_column_but_the_count(self):
        self.condensed("id,pay\na,5\nb,7\n", "id=leave out", "pay=sum")
        self.assertEqual((self.out / "table.csv").read_text(), "people,pay\n2,12\n")

    def test_splitting_is_for_what_condensing_cant_do(self):
        rows = drawn(12_000, values=(4, 16, 120))
        said = self.not_condensed(text_of(rows), *DRAWN_KINDS)
        self.assertIn(f"there are {len(plain_lines(rows)) - 1:,} rows, and a table has at most 4,096: prepare.py lines shows", said)
        self.choose("split by=region")
        self.assertEqual(self.make()[0], 0)
        parts = [self.out / f"r{number}" for number in range(4)]
        lines = [line for part in parts for line in (part / "table.csv").read_text().splitlines()[1:]]
        self.assertEqual(sorted(lines), sorted(",".join(line) for line in plain_lines(rows)[1:]))

    def test_too_many_rows_are_told_of_lines(self):
        self.chosen_for(text_of(drawn(4200)), *DRAWN_KINDS, "count=none")
        status, said = self.make()
        self.assertEqual((status, self.out.exists()), (1, False))
        self.assertIn("4,200 rows are left, and a table has at most 4,096: choose count=people", said)

    def test_encodings_and_separators_as_ever(self):
        for encoding, mark, end in (("utf-16", ";", "\r\n"), ("utf-8-sig", "\t", "\r"), ("cp1252", "|", "\n")):
            with self.subTest(encoding):
                self.choices.unlink(missing_ok=True)
                self.out = self.folder / encoding
                text = "sep=;\r\n" * (mark == ";") + f"Größe{mark}Lohn{end}mäßig{mark}5{end}mäßig{mark}7{end}"
                self.look(text, encoding=encoding)
                self.choose("protect=none", "range=none", "count=people", "Lohn=sum", "others=text")
                status, said = self.make()
                self.assertEqual(status, 0, said)
                self.assertEqual((self.out / "table.csv").read_text(), "Grosse,people,Lohn\nmäßig,2,12\n")

    def test_wave_is_1_in_each_line(self):
        self.condensed(STAFF, *KINDS, "wave=1")
        self.assertEqual((self.out / "table.csv").read_text().splitlines()[:2], ["dept,age,people,pay,best,least,wave", "DEV,30,2,300,3,9,1"])

    def test_what_is_pointed_out_is_of_lines_of_one_person(self):
        rows = [[f"d{k // 2}", 50_000 + k] for k in range(0, 40)] + [[f"one{k}", k + 1] for k in range(3)]
        said = self.condensed(text_of([["dept", "pay"], *rows]), "dept=text", "pay=sum")
        self.assertIn("Of the 3 rows of one person, counted in table.csv with its header as row 1:", said)
        self.assertIn("CAREFUL: pay is always one of 1, 2, 3", said)
        self.assertNotIn("50,00", said)

    def test_the_program_that_is_too_old_is_named(self):
        program = self.folder / "auditor"
        program.write_text('#!/bin/sh\necho "schema: fault 3" >&2\nexit 3\n')
        program.chmod(0o755)
        self.chosen_for(STAFF, *KINDS)
        before = self.names()
        with mock.patch.dict(os.environ, {"AUDITOR": str(program), "PATH": os.defpath}):
            status, said = self.make()
        self.assertEqual((status, self.names()), (1, before))
        self.assertIn("older than rows that stand for several people: choose count=none", said)


class Refused(LinesTest):
    def test_what_cant_be_read_is_named_and_leaves_nothing(self):
        for text, due in (
            (STAFF + "QA,30,many,1,1\n", "row 8, column 'pay': 'many' isn't a number"),
            (STAFF + "QA,old,5,1,1\n", "row 8, column 'age': 'old' isn't a number"),
            (STAFF + "QA,30,5,1\n", "row 8 has 4 cells and the header has 5"),
            (STAFF + 'QA,30,5,1,"1\n', "the quotes don't fit"),
            (STAFF + 'QA,30,5,1,"1"2\n', "the quotes don't fit"),
            (STAFF + "QA,30,5.5,1,1\n", "row 8, column 'pay': '5.5' isn't a number written as 1234"),
            (STAFF + "QA,30,9999999999999,1,1\n", "'9999999999999' is beyond 1,000,000,000,000"),
            (STAFF + "QA,30,,1,1\n", "nothing stands there"),
            (STAFF + "Q\0A,30,5,1,1\n", "a byte 0 stands there"),
            (STAFF.replace("age", "old"), "aren't those that the choices were made for"),
            ("dept,age,pay,best,least\n", "the file has a header and no row"),
            ("\n\n", "has no header"),
        ):
            with self.subTest(due):
                self.choices.unlink(missing_ok=True)
                self.chosen_for(STAFF, *KINDS)
                self.file.write_text(text)
                before = self.names()
                status, said = self.make()
                self.assertEqual((status, self.names()), (1, before), said)
                self.assertIn(due, said)

    def test_the_first_twenty_bad_cells_end_the_reading(self):
        said = self.not_condensed(STAFF + "QA,30,many,1,1\n" * 500, *KINDS, "pay.written as=1234", "pay.missing is=", "pay.decimals=0")
        self.assertEqual(said.count("isn't a number"), 20)
        self.assertIn("The rest of the file isn't read", said)

    def test_bytes_of_another_encoding_are_named_by_their_row(self):
        self.chosen_for(STAFF, *KINDS)
        self.file.write_bytes(STAFF.encode() + b"\xff,30,5,1,1\n")
        status, said = self.make()
        self.assertEqual((status, self.out.exists()), (1, False))
        self.assertIn("bytes that aren't utf-8 ('utf-8' codec can't decode byte 0xff", said)

    def test_more_decimals_than_are_kept_are_refused(self):
        said = self.not_condensed("dept,pay\nQA,1.25\nQA,2.5\n", "dept=text", "pay=sum", "pay.decimals=1")
        self.assertIn("'1.25' has more than 1 decimal, and nothing is rounded", said)

    def test_a_total_that_is_too_large_is_refused(self):
        said = self.not_condensed("dept,pay\n" + "QA,600000000000\n" * 2, "dept=text", "pay=sum")
        self.assertIn("the total of pay of the 2 people with dept 'QA' is beyond 1,000,000,000,000", said)

    def test_a_number_outside_of_the_known_range_is_refused(self):
        for choice, row in (("0 to none", 6), ("none to 300", 4)):
            with self.subTest(choice):
                self.choices.unlink(missing_ok=True)
                self.assertIn(f"pay: row {row} has a number that isn't in the range", self.not_condensed(STAFF, *KINDS, f"pay.range={choice}"))

    def test_names_of_counts_that_cant_be(self):
        for name, due in (("2x", "\"count\" can't be '2x'"), ("and", "\"count\" can't be 'and'"), ("dept", "two columns would have one name: dept")):
            with self.subTest(name):
                self.choices.unlink(missing_ok=True)
                self.assertIn(due, self.not_condensed(STAFF, *KINDS, f"count={name}"))

    def test_a_table_with_a_key_isnt_condensed(self):
        self.chosen_for(STAFF.replace("dept,", "id,dept,").replace("\nQ", "\n1,Q").replace("\nD", "\n2,D"), "id=leave out", *KINDS)
        status, said = self.prepare("make", self.file, self.choices, self.out, "key=id")
        self.assertEqual((status, self.out.exists()), (1, False))
        self.assertIn("a table whose rows stand for several people has no key", said)

    def test_a_total_by_how_many_people_there_are_isnt_protected(self):
        self.chosen_for(STAFF, *KINDS)
        status, said = self.choose("protect=pay where people >= 2")
        self.assertEqual(status, 1)
        self.assertIn("the total of pay where people >= 2 can't be protected", said)

    def test_too_many_combinations_are_named_with_the_columns_of_most_values(self):
        with mock.patch("preparing.condensing.MOST_LINES", 5):
            said = self.not_condensed(text_of(drawn(200)), *DRAWN_KINDS)
        self.assertIn("there are more than 5 combinations of public cells. The columns with most different values: ", said)
        self.assertIn("Leave one out, choose bands for a number, or join values of a text", said)

    def test_columns_that_follow_from_each_other_are_refused(self):
        rows = [[f"d{k % 7}", k, 3 * k] for k in range(1, 50)]
        said = self.not_condensed(text_of([["dept", "pay", "bonus"], *rows]), "dept=text", "pay=sum", "bonus=sum")
        self.assertIn("bonus is 3 times pay in every row", said)
        self.choices.unlink()
        ones = text_of([["dept", "one"], *([f"d{k % 5 * k % 7}", 1] for k in range(40))])
        self.assertIn("one is equal to people in every row", self.not_condensed(ones, "dept=text", "one=sum"))

    def test_nothing_is_overwritten_and_a_stop_leaves_nothing(self):
        self.chosen_for(STAFF, *KINDS)
        before = self.names()
        for name in ("preparing.writing.write_folder", "os.rename"):
            for stop in (KeyboardInterrupt, OSError(28, "No space left on device"), MemoryError):
                with self.subTest(f"{name}, {stop}"), mock.patch(name, side_effect=stop):
                    self.assertEqual((self.make()[0], self.names()), (1, before))
        self.out.mkdir()
        self.assertIn("is already there, and nothing is overwritten", self.make()[1])


class Streaming(LinesTest):
    def test_what_is_known_in_memory_may_end(self):
        rows = [[f"r{k % 3}" + " " * (1 + k % 50), k] for k in range(900)]
        with mock.patch("preparing.condensing.MOST_KNOWN", 10):
            said = self.condensed(text_of([["region", "pay"], *rows]), "region=text", "pay=sum")
        self.assertEqual([row[1] for row in self.table()[1:]], ["300"] * 3)
        self.assertIn("900 cells without the blanks around it", said)

    def test_it_says_how_far_it_is(self):
        with mock.patch("preparing.streaming.PATIENCE", 0):
            said = self.condensed(text_of(drawn(4000)), *DRAWN_KINDS)
        self.assertRegex(said, r"(?m)^\d+ % read, [\d,]+ rows$")
        self.assertRegex(said, r"(?m)^read: 4,001 rows in 0 s$")

    def test_memory_doesnt_grow_with_the_people(self):
        """200,000 and 800,000 people take a process the same memory, within a tenth."""
        self.chosen_for(text_of(drawn(50)), *DRAWN_KINDS)
        peaks = []
        for turn, times in enumerate((40, 160)):
            rows = drawn(5000)
            with open(self.file, "w") as file:
                file.write(text_of(rows[:1]))
                for _ in range(times):
                    file.write(text_of(rows[1:]))
            words = ["make", self.file, self.choices, self.folder / f"out{turn}"]
            run = subprocess.run([sys.executable, "-c", MEASURED, *words], capture_output=True, text=True)
            self.assertEqual(run.returncode, 0, run.stderr)
            peaks.append(int(run.stdout.split()[-1]))
        self.assertLess(peaks[1], peaks[0] * 1.1)
        self.assertLess(peaks[1], 50_000)


class Looking(LinesTest):
    """A file that is too large for memory is looked at as a stream, and what is seen is the same."""

    def streamed(self, text, *options, encoding="utf-8", first=300):
        with mock.patch("preparing.reading.MOST_BYTES", 500), mock.patch("preparing.streaming.FIRST", first):
            return self.look(text, *options, encoding=encoding)

    def test_what_is_seen_is_what_is_seen_in_memory(self):
        rows = drawn(300)
        for row in rows[1::7]:
            row[2] = "NA"
        rows[40][0] = "a, \"b\"\nc"
        for encoding in ("utf-8", "utf-8-sig", "utf-16", "cp1252"):
            with self.subTest(encoding):
                text = text_of([["Größe", *rows[0][1:]], *rows[1:]])
                seen = []
                for look in (self.look, self.streamed):
                    self.choices.unlink(missing_ok=True)
                    status, said = look(text, encoding=encoding)
                    self.assertEqual(status, 0, said)
                    seen.append((self.chosen(), [line for line in said.splitlines() if line.startswith(("  '", "rows", "separator"))]))
                self.assertEqual(*seen)

    def test_a_gap_is_seen_wherever_it_stands_and_the_first_cells_say_how_numbers_are_written(self):
        text = text_of([["dept", "pay"], *([f"d{k}", k] for k in range(200)), ["d7", "NA"], ["NA", 5]])
        with mock.patch("preparing.looking.MOST_DIFFERENT", 50):
            said = self.streamed(text)[1]
        self.assertIn("'pay': more than 50 different, and what follows goes by the first of them; numbers", said)
        self.assertEqual([column["missing is"] for column in self.chosen()["columns"]], [["NA"], ["NA"]])

    def test_it_says_what_can_be_done_with_so_many(self):
        said = self.streamed(text_of(drawn(4100)))[1]
        self.assertIn("With count=people a row stands for all people with the same public cells", said)
        self.assertNotIn("split by=", said)

    def test_what_isnt_a_table_is_named_by_its_row(self):
        text = text_of(drawn(300))
        for changed, due in ((text + "a,b\n", "row 302 has 2 cells and the header has 5"), (text + 'a,"b\n', "the quotes don't fit"),
                             ("x" * 600 + "\n" + text, "no line end in its first 300 bytes"), (text.replace("\n", "\r"), "no line end in its first")):
            with self.subTest(due):
                self.choices.unlink(missing_ok=True)
                status, said = self.streamed(changed)
                self.assertEqual((status, self.choices.exists()), (1, False), said)
                self.assertIn(due, said)

    def test_the_last_row_may_be_a_total(self):
        self.assertIn("CAREFUL: row 302, the last, says 'Total'", self.streamed(text_of([*drawn(300), ["Total", "", "", 5, 5]]))[1])


class Adding(LinesTest):
    MORE = "dept,age,pay,best,least\nQA,41,5,6,7\nQA,41,8,9,9\nOPS,30,1,2,3\n"

    def setUp(self):
        super().setUp()
        self.condensed(STAFF, *KINDS, "wave=1")
        self.longer = self.folder / "longer"

    def add(self, text, to=None, old=None):
        self.file.write_text(text)
        return self.prepare("add", self.file, self.choices, old or self.out, to or self.longer)

    def test_newcomers_are_condensed_alone_and_stand_at_the_end(self):
        status, said = self.add(self.MORE)
        self.assertEqual(status, 0, said)
        before = (self.out / "table.csv").read_text()
        self.assertEqual((self.longer / "table.csv").read_text(), before + "OPS,30,1,1,2,3,2\nQA,41,2,13,9,7,2\n")
        self.assertEqual((self.longer / "public/table.csv").read_text(), (self.out / "public/table.csv").read_text() + "OPS,30,1,2\nQA,41,2,2\n")
        self.assertEqual((self.longer / "schema.json").read_bytes(), (self.out / "schema.json").read_bytes())
        self.assertIn("1 row of newcomers: the public cells are those of an old row, which goes on standing for whom it stood for", said)
        self.assertIn("added: 2 rows after 3 rows, of wave 2", said)
        self.assertIn("9 people in 5 rows: 2 of one person, 2 of two, 1 of three or more", said)

    def test_again_and_again(self):
        self.add(self.MORE)
        self.assertEqual(self.add(self.MORE, self.folder / "longest", self.longer)[0], 0)
        waves = [line.rsplit(",", 1)[1] for line in (self.folder / "longest/table.csv").read_text().splitlines()]
        self.assertEqual(waves, ["wave", "1", "1", "1", "2", "2", "3", "3"])

    def test_lines_that_an_engine_wrote_are_added_to(self):
        path = self.out / "table.csv"
        path.write_bytes(path.read_bytes().replace(b"\n", b"\r\n").rstrip())
        self.assertEqual(self.add(self.MORE)[0], 0)
        self.assertEqual(len((self.longer / "table.csv").read_text().splitlines()), 6)

    def test_what_doesnt_fit_is_refused_and_leaves_nothing(self):
        before = self.names()
        many = "dept,age,pay,best,least\n" + "".join(f"d{k},30,{k * k},{k % 5},{k % 7}\n" for k in range(4094))
        for text, due in ((self.MORE.replace("QA,41,5", "QA,41,x"), "isn't a number"), (many, "there would be 4,097 rows, 4,094 of them of newcomers"),
                          (self.MORE.replace("dept", "team"), "aren't those that the choices were made for"),
                          ("dept,age,pay,best,least\n", "the file has a header and no row")):
            with self.subTest(due):
                status, said = self.add(text)
                self.assertEqual((status, self.names()), (1, before), said)
                self.assertIn(due, said)

    def test_rows_of_people_arent_added_to_as_lines(self):
        other = self.folder / "other"
        self.choose("count=none")
        self.file.write_text(STAFF)
        self.assertEqual(self.prepare("make", self.file, self.choices, other)[0], 0)
        self.choose("count=people")
        status, said = self.add(self.MORE, old=other)
        self.assertEqual(status, 1)
        self.assertIn("the choices give other columns than", said)


class Checking(LinesTest):
    def setUp(self):
        super().setUp()
        self.chosen_for(STAFF, *KINDS)
        self.lines = self.folder / "lines.csv"

    def check(self, text):
        self.lines.write_text(text)
        return self.prepare("check", self.file, self.choices, self.lines)

    def test_lines_in_any_order_and_any_writing_are_taken(self):
        for text in (LINES, LINES.replace("\n", "\r\n"), LINES.replace("QA", '"QA"'), "\n".join([LINES.split("\n")[0], *LINES.split("\n")[:0:-1]]) + "\n",
                     "\ufeff" + LINES, LINES.rstrip(), LINES.replace(",3,", ", +03,")):
            with self.subTest(text):
                status, said = self.check(text)
                self.assertEqual(status, 0, said)
                self.assertIn("3 rows: 1 of one person, 1 of two, 1 of three or more: they are those of the 6 people of", said)

    def test_each_difference_is_named(self):
        for old, new, due in (
            ("QA,30,3,", "QA,30,4,", "line 3, dept 'QA', age 30: people is 4, and should be 3"),
            ("QA,41,1,205", "QA,41,1,206", "line 4, dept 'QA', age 41: pay is 206, and should be 205"),
            (",9,-8", ",8,-8", "line 3, dept 'QA', age 30: best is 8, and should be 9"),
            ("DEV,30", "DEV,31", "line 2: nobody has dept 'DEV', age 31\nno row has dept 'DEV', age 30, and 2 people should be in it"),
            ("QA,41,1,205,8,5\n", "", "no row has dept 'QA', age 41, and 1 person should be in it"),
            ("QA,41,1,205,8,5\n", "QA,41,1,205,8,5\nQA,41,1,205,8,5\n", "lines 4 and 5 have the same public cells: dept 'QA', age 41"),
            ("QA,30,3,300,9,-8\n", "QA,30,2,150,7,-3\nQA,30,1,150,9,-8\n", "lines 3 and 4 have the same public cells"),
            ("QA,30", "qa,30", "nobody has dept 'qa', age 30"),
        ):
            with self.subTest(due):
                status, said = self.check(LINES.replace(old, new))
                self.assertEqual(status, 1, said)
                self.assertIn(due, said)

    def test_what_isnt_a_file_of_lines_is_named(self):
        for text, due in (
            (LINES.replace("people", "persons"), "the header is 'dept', 'age', 'persons'"),
            ("", "the header is , and should be dept"),
            (LINES.replace("QA,30,3", "QA,30,three"), "line 3: people is 'three', and should be a whole number"),
            (LINES.replace("QA,30,3", "QA,30,3.0"), "people is '3.0', and should be a whole number"),
            (LINES.replace("QA,30,3", "QA,30,"), "people is '', and should be a whole number"),
            (LINES.replace("QA,30,3", "QA,30,0"), "people is 0, and should be 3"),
            (LINES.replace("QA,30,3", "QA,30,-3"), "people is -3, and should be 3"),
            (LINES.replace("QA,30,3,", "QA,30,"), "line 3: there are 5 cells, and should be 6"),
            (LINES.replace("QA", '"QA'), "isn't CSV in UTF-8"),
        ):
            with self.subTest(due):
                status, said = self.check(text)
                self.assertEqual(status, 1, said)
                self.assertIn(due, said)

    def test_a_grown_table_isnt_a_first_one(self):
        self.choose("wave=1")
        header, *lines = LINES.split("\n")[:-1]
        first = "\n".join([header + ",wave", *(line + ",1" for line in lines)]) + "\n"
        self.assertEqual(self.check(first)[0], 0)
        self.assertIn("line 5: it is of wave 2, and a first table has wave 1 alone", self.check(first + "QA,41,1,205,8,5,2\n")[1])

    def test_without_a_column_of_counts_there_is_nothing_to_compare(self):
        self.choose("count=none")
        self.assertIn("there is nothing to compare", self.check(LINES)[1])

    def test_drawn_people_and_each_number_changed_by_one(self):
        rows = drawn(400, values=(2, 2, 4))
        self.choices.unlink()
        self.condensed(text_of(rows), *DRAWN_KINDS)
        table = self.table()
        for place, column in itertools.product(range(1, len(table)), range(3, 6)):
            changed = [list(row) for row in table]
            changed[place][column] = str(int(changed[place][column]) + 1)
            status, said = self.check(text_of(changed))
            self.assertEqual(status, 1)
            self.assertIn(f"line {place + 1}, ", said)


class Taking(LinesTest):
    def setUp(self):
        super().setUp()
        self.condensed(STAFF, *KINDS)
        self.lines, self.taken = self.folder / "lines.csv", self.folder / "taken"

    def take(self, text):
        self.lines.write_text(text)
        return self.prepare("take", self.lines, self.choices, self.taken)

    def test_lines_in_any_order_give_the_folder_that_make_gives(self):
        for text in (LINES, LINES.replace("\n", "\r\n"), "\n".join([LINES.split("\n")[0], *LINES.split("\n")[:0:-1]]) + "\n"):
            with self.subTest(text):
                shutil.rmtree(self.taken, ignore_errors=True)
                status, said = self.take(text)
                self.assertEqual(status, 0, said)
                self.assertIn("6 people in 3 rows: 1 of one person", said)
                for path in self.out.rglob("*.*"):
                    self.assertEqual((self.taken / path.relative_to(self.out)).read_bytes(), path.read_bytes())

    def test_what_cant_be_a_first_table_is_refused_and_leaves_nothing(self):
        self.choose("pay.range=0 to none")
        for old, new, due in (
            ("QA,41,1,205,8,5\n", "QA,41,1,205,8,5\nQA,41,1,205,8,5\n", "lines 4 and 5 have the same public cells: dept 'QA', age 41"),
            ("QA,41,1", "QA,41,0", "line 4: people is 0, and a row stands for 1 to 1,000,000,000,000 people"),
            ("QA,41,1", "QA,41,-1", "people is -1"),
            ("QA,41,1", "QA,41,1000000000001", "people is 1,000,000,000,001"),
            ("QA,41,1,205", "QA,41,1,1000000000001", "line 4: pay is beyond 1,000,000,000,000"),
            ("QA,41,1,205", "QA,41,1,-205", "pay: row 4 has a number that isn't in the range '0 to none'"),
            ("QA,41,1,205", "QA,41,1,20.5", "pay is '20.5', and should be a whole number"),
            (LINES[LINES.index("\n") + 1:], "", "has a header and no row"),
        ):
            with self.subTest(due):
                status, said = self.take(LINES.replace(old, new))
                self.assertEqual((status, self.taken.exists()), (1, False), said)
                self.assertIn(due, said)
        self.assertIn("is already there, and nothing is overwritten", self.prepare("take", self.lines, self.choices, self.out)[1])
        self.choose("count=none")
        self.assertIn("no column of counts is chosen", self.take(LINES)[1])


class Trying(LinesTest):
    def lines(self, *words):
        return self.prepare("lines", self.file, self.choices, *words)

    def of(self, said, words):
        """The figures of the line that begins with these words."""
        return next(line for line in said.splitlines() if line.startswith(words + "  "))[len(words):].split()

    def test_the_table_by_hand(self):
        self.chosen_for(STAFF, *KINDS)
        before = self.names()
        status, said = self.lines()
        self.assertEqual((status, self.names()), (0, before), said)
        self.assertEqual(self.of(said, "as chosen"), ["3", "1", "1", "1", "16.67", "%"])
        self.assertEqual(self.of(said, 'dept="leave out"'), ["2", "1", "0", "1", "16.67", "%"])
        self.assertEqual(self.of(said, 'age="leave out"'), ["2", "0", "1", "1", "0.00", "%"])

    def test_each_choice_gives_what_make_gives_with_it(self):
        rows = drawn(900, values=(4, 6, 40))
        self.chosen_for(text_of(rows), *DRAWN_KINDS)
        for words in (("age.bands=5",), ("age.bands=20",), ('region=leave out',), ("sector=leave out", "age.bands=10"), ("region.join=r0+r1 as low",)):
            with self.subTest(words):
                said = self.lines(*words)[1]
                tried = self.of(said, ", ".join(["as chosen", *words]))
                first = self.lines()[1]
                if len(words) == 1 and "join" not in words[0]:
                    self.assertEqual(self.of(first, words[0].replace("=leave out", '="leave out"')), tried)
                self.choose(*words)
                self.out = self.folder / words[0]
                made = self.make()[1]
                self.assertIn(f"900 people in {tried[0]} rows: {tried[1]} of one person, {tried[2]} of two, {tried[3]} of three or more", made)
                self.choose("region=text", "sector=text", "age.bands=none", "region.join=none")

    def test_values_are_joined_by_how_many_people_have_them(self):
        rows = [["region", "pay"]] + [[f"r{k}", n] for k in range(6) for n in range(k + 1)]
        self.chosen_for(text_of(rows), "region=text", "pay=sum")
        self.assertEqual(self.of(self.lines()[1], "region: its 3 rarest values as one"), ["4", "0", "0", "4", "0.00", "%"])

    def test_bands_of_bands_are_wider_ones_that_they_fit_into(self):
        self.chosen_for(text_of(drawn(300)), *DRAWN_KINDS)
        said = self.lines("age.bands=10")[1]
        self.assertIn("age_from.bands=20 ", said)
        self.assertNotIn("age_from.bands=5 ", said)
        self.assertNotIn("age_from.bands=10 ", said)
        self.assertNotIn("age_from.bands", self.lines("age.bands=0,30,40")[1])

    def test_numbers_with_decimals_are_tried_in_the_files_units(self):
        rows = [["h", "pay"]] + [[f"{100 + k / 10:.1f}", k * k % 307] for k in range(300)]
        self.chosen_for(text_of(rows), "h=number", "pay=sum")
        said = self.lines()[1]
        tried = self.of(said, "h_x10.bands=10")
        self.assertEqual(tried[:4], ["3", "0", "0", "3"])
        self.choose("h_x10.bands=10")
        self.assertIn("300 people in 3 rows", self.make()[1])

    def test_what_is_open_is_named_but_for_ranges_and_totals(self):
        self.look(STAFF)
        self.assertIn("still to be chosen:\ndept\nage", self.lines()[1])
        self.choose(*KINDS)
        self.assertEqual(self.lines()[0], 0)
        self.assertIn("'x' sets nothing", self.lines("x")[1])
        self.assertIn("no column is called 'old'", self.lines("old.bands=10")[1])


class WithRows(TableTest):
    """A table of rows, each of one person."""

    def test_combinations_are_shown_of_rows_too(self):
        self.look(STAFF)
        self.choose(*KINDS, "range=none", "protect=none")
        status, said = self.prepare("lines", self.file, self.choices)
        self.assertEqual(status, 0, said)
        self.assertIn("as chosen", said)


if __name__ == "__main__":
    unittest.main()

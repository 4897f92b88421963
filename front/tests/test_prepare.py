"""What prepare.py makes of small files whose tables were worked out by hand. AUDITOR=.. /usr/bin/python3 -m unittest test_prepare"""

import json
import os
import random
import stat
import unittest
from unittest import mock

from table_kit import TableTest

STAFF = "team,age,salary\nQA,30,100\nQA,41,205\nDEV,41,310\n"
STAFF_KINDS = ("team=text", "age=number", "salary=sum")


class Reading(TableTest):
    def test_every_encoding_gives_the_same_table(self):
        text = "Größe;Lohn\nmäßig;5\ngroß;7\n"
        for encoding in ("utf-8", "utf-8-sig", "utf-16", "cp1252"):
            with self.subTest(encoding):
                self.choices.unlink(missing_ok=True)
                status, said = self.look(text, encoding=encoding)
                self.assertEqual(
                    (status, [column["from"] for column in self.chosen()["columns"]]), (0, ["Größe", "Lohn"]), said
                )
                self.assertIn("'mäßig'", said)

    def test_the_last_lines_say_to_init_then_to_plan_then_to_ask(self):
        said = self.made(STAFF, *STAFF_KINDS)
        init, plan, ask = said.strip().split("\n")[-3:]
        self.assertIn(f"(cd {self.out} && auditor init)", init)
        self.assertIn(f"plan.py auditor {self.out}/public WANTED > first.jsonl", plan)
        self.assertIn("before anybody asks, since each answer may close others", plan)
        self.assertIn(f"ask.py {self.out} ", ask)
        self.assertIn("door.py --first", ask)

    def test_an_encoding_can_be_named(self):
        status, said = self.look("Größe;Lohn\nx;5\ny;7\n".encode("cp850"), "encoding=cp850")
        self.assertEqual((status, self.chosen()["columns"][0]["from"]), (0, "Größe"), said)

    def test_every_separator_gives_the_same_table(self):
        for name, mark in (("comma", ","), ("semicolon", ";"), ("tab", "\t"), ("bar", "|"), ("blank", " ")):
            with self.subTest(name):
                self.choices.unlink(missing_ok=True)
                self.assertEqual(self.look(STAFF.replace(",", mark))[0], 0)
                self.assertEqual((self.chosen()["separator"], len(self.chosen()["columns"])), (name, 3))

    def test_blanks_before_quotes_arent_part_of_a_cell(self):
        self.look('team, pay\n"A, b", "5"\n"C", "7"\n', "separator=comma")
        self.choose("team=text", "pay=sum", "protect=none", "range=none")
        self.assertEqual(self.make()[0], 0)
        self.assertEqual(self.table(), [["team", "pay"], ["A, b", "5"], ["C", "7"]])

    def test_every_line_end_gives_the_same_table(self):
        for end in ("\n", "\r\n", "\r"):
            with self.subTest(repr(end)):
                self.choices.unlink(missing_ok=True)
                self.assertIn("rows: 3", self.look(STAFF.replace("\n", end))[1])

    def test_a_spreadsheets_line_on_the_separator_isnt_a_row(self):
        status, said = self.look("sep=;\nteam;pay\nA;1,5\nB;2,5\n")
        self.assertEqual(status, 0, said)
        self.assertIn("rows: 2", said)

    def test_a_file_that_can_be_cut_two_ways_is_asked_about(self):
        status, said = self.look("a,b;c\n1,2;3\n4,5;6\n")
        self.assertEqual((status, self.names()), (1, ["t.csv"]))
        self.assertIn("separator=comma; separator=semicolon", said)
        self.assertEqual(self.look("a,b;c\n1,2;3\n4,5;6\n", "separator=semicolon")[0], 0)
        self.assertEqual([column["from"] for column in self.chosen()["columns"]], ["a,b", "c"])

    def test_row_names_without_a_title_are_the_first_column(self):
        status, said = self.look('"team" "pay"\n"1" "QA" 5\n"2" "DEV" 7\n')
        self.assertEqual(status, 0, said)
        self.assertEqual([column["from"] for column in self.chosen()["columns"]], ["", "team", "pay"])

    def test_a_column_without_a_title_at_either_end_is_asked_about(self):
        status, said = self.look("team,pay\nQA,5,\nDEV,7,\n")
        self.assertEqual(status, 1)
        self.assertIn("untitled=first; separator=comma untitled=last", said)
        self.assertEqual(self.look("team,pay\nQA,5,\nDEV,7,\n", "untitled=last")[0], 0)
        self.assertEqual([column["from"] for column in self.chosen()["columns"]], ["team", "pay", ""])

    def test_uneven_rows_are_named_and_counted(self):
        rows = "".join("1,2,3\n" if number % 2 else "1,2,3,4\n" for number in range(60))
        status, said = self.look("a,b,c\n" + rows)
        self.assertEqual(status, 1)
        self.assertIn("row 2 has 4 cells and the header has 3\n", said)
        self.assertEqual(said.count("the header has 3\n"), 20)
        self.assertIn("and 10 more", said)

    def test_an_open_quote_is_named_by_its_row(self):
        status, said = self.look('a,b\n1,x\n2,"y\n3,z\n')
        self.assertEqual(status, 1)
        self.assertIn("row 3: a quote is opened and never closed", said)

    def test_files_that_are_no_table_get_a_sentence(self):
        for data, words in (
            (b"", "is empty"),
            (b" \n", "is empty"),
            (b"a,b\n", "a header and no row"),
            (b"a,b\n1,\0\n", "line 2 has a byte 0"),
            (b"a,b\n\x81,2\n", "byte 4"),
            (b"a\n1\n", "the first line has one cell"),
        ):
            with self.subTest(data):
                status, said = self.look(data)
                self.assertEqual((status, self.names()), (1, ["t.csv"]))
                self.assertIn(words, said)

    def test_lines_with_nothing_in_them_are_passed_over_and_said(self):
        said = self.made("team,pay\nQA,5\n\nDEV,7\n,\n", "team=text", "pay=sum")
        self.assertIn("passed over: 2 lines", said)
        self.assertEqual(len(self.table()), 3)

    def test_a_last_row_of_totals_is_pointed_out(self):
        self.assertIn("CAREFUL: row 4, the last, says 'Total:'", self.look("team,pay\nA,5\nB,7\nTotal:,12\n")[1])
        self.choices.unlink()
        self.assertNotIn("CAREFUL", self.look("team,pay\nTotal,5\nB,7\nA,12\n")[1])

    def test_a_cell_with_line_ends_commas_and_quotes_stays_whole(self):
        cell = 'a "b",\r\nc\rd\n\'e'
        self.made('note,pay\n"' + cell.replace('"', '""') + '",5\nx,7\n', "note=text", "pay=sum")
        self.assertEqual(self.table()[1], [cell, "5"])
        self.assertEqual(self.table("public")[1], [cell])

    def test_a_lone_line_end_within_a_cell_is_quoted(self):
        for cell in ("c\rd", "c\nd", "c\u2028d", "c\x85d"):
            with self.subTest(repr(cell)):
                self.choices.unlink(missing_ok=True)
                self.out = self.folder / f"out{ord(cell[1])}"
                self.made(f'note,pay\n"{cell}x",5\ny,7\n', "note=text", "pay=sum")
                self.assertEqual([row[0] for row in self.table()], ["note", f"{cell}x", "y"])


class Names(TableTest):
    def test_names_are_made_good_and_said(self):
        titles = ["yrs.since.phd", "yrs since phd", "9 lives", "and", "Größe", "", "salary", "salary", "x" * 40]
        status, said = self.look(";".join(titles) + "\n" + ";".join("abcdefghi") + "\n")
        self.assertEqual(status, 0, said)
        self.assertEqual(
            [column["name"] for column in self.chosen()["columns"]],
            [
                "yrs_since_phd",
                "yrs_since_phd_2",
                "c_9_lives",
                "and_",
                "Grosse",
                "column_6",
                "salary",
                "salary_2",
                "x" * 32,
            ],
        )
        self.assertIn("'yrs since phd', to be named yrs_since_phd_2", said)

    def test_a_good_name_is_kept_though_a_title_before_it_would_take_it(self):
        self.look("a b,a_b\n1,2\n")
        self.assertEqual([column["name"] for column in self.chosen()["columns"]], ["a_b_2", "a_b"])

    def test_a_name_that_cant_be_one_or_that_stands_twice_is_refused(self):
        self.assertIn("'2x' can't be a name", self.refused(STAFF, *STAFF_KINDS, "age.name=2x"))
        self.choices.unlink()
        self.assertIn("two columns would have one name: team", self.refused(STAFF, *STAFF_KINDS, "age.name=team"))


class Numbers(TableTest):
    def pays(self, cells, *words):
        """The numbers of a secret column that has these cells."""
        self.made(
            "team;pay\n" + "".join(f"t{number};{cell}\n" for number, cell in enumerate(cells)),
            "team=text",
            "pay=sum",
            *words,
        )
        return [row[1] for row in self.table()[1:]]

    def test_decimals_are_scaled_exactly(self):
        self.assertEqual(self.pays(["0.1", "10.50", "-3", "99.99", "+7.05"]), ["10", "1050", "-300", "9999", "705"])
        self.assertEqual(
            json.loads((self.out / "public/notes.json").read_text())["columns"]["pay"], {"title": "pay", "decimals": 2}
        )

    def test_what_a_double_would_miss_is_scaled_exactly(self):
        self.assertEqual(self.pays(["0.29", "1.15", "8.2", "1.005"]), ["290", "1150", "8200", "1005"])

    def test_powers_of_ten_as_r_writes_them_are_read(self):
        self.assertEqual(self.pays(["1e+05", "250", "1.5e+02"]), ["100000", "250", "150"])

    def test_marks_between_thousands_and_units_go(self):
        self.assertEqual(self.pays(["€ 1.250,00", "€ 7,50", "-€ 12.000,25"]), ["125000", "750", "-1200025"])

    def test_a_secret_number_is_never_rounded(self):
        said = self.refused("team,pay\nA,1.25\nB,2.5\n", "team=text", "pay=sum", "pay.decimals=1")
        self.assertIn("row 2, column 'pay': '1.25' has more than 1 decimal, and nothing is rounded", said)
        said = self.choose("pay.rounded=down")[1] + self.make()[1]
        self.assertIn("a secret column isn't rounded", said)
        self.assertFalse(self.out.exists())

    def test_fewer_decimals_are_kept_if_nothing_is_lost(self):
        self.assertEqual(self.pays(["1.50", "2.0"], "pay.decimals=1"), ["15", "20"])

    def test_a_public_number_is_rounded_by_choice_and_said(self):
        for how, due in (("down", ["-2", "1", "3", "5"]), ("nearest", ["-1", "1", "4", "5"])):
            with self.subTest(how):
                self.choices.unlink(missing_ok=True)
                self.out = self.folder / how
                said = self.made(
                    "age,pay\n1.25,5\n-1.5,7\n3.5,1\n5,9\n",
                    "age=number",
                    "age.decimals=0",
                    f"age.rounded={how}",
                    "pay=sum",
                )
                self.assertEqual([row[0] for row in self.table()[1:]], due)
                self.assertIn("3 cells rounded", said)

    def test_public_decimals_stand_in_the_name(self):
        self.made("age,pay\n1.25,5\n2,9\n", "age=number", "pay=sum")
        self.assertEqual(self.table()[:2], [["age_x100", "pay"], ["125", "5"]])
        self.choices.unlink()
        self.out = self.folder / "other"
        self.look("age,pay\n1.25,5\n2,9\n")
        self.choose("age=number", "pay=sum", "protect=none", "range=none")
        self.choices.write_text(self.choices.read_text().replace("age_x100", "age"))
        status, said = self.make()
        self.assertEqual(status, 1)
        self.assertIn("name it age_x100", said)

    def test_a_number_with_two_readings_is_asked_about(self):
        for cell, first, second, form in (("1,250", "1.25", "1250", "1,234"), ("1.250", "1.25", "1250", "1.234")):
            with self.subTest(cell):
                self.choices.unlink(missing_ok=True)
                status, said = self.look(f"team;pay\nA;{cell}\nB;7\n")
                self.assertIn(f"but {cell!r} may be {first} (written as", said)
                self.assertIn(f"or {second} (written as {form})", said)
                self.assertEqual(self.column("pay")["written as"], "?")
                self.choose("team=text", "pay=sum", "protect=none", "range=none")
                self.assertIn("pay.written as", self.make()[1])
                self.assertFalse(self.out.exists())

    def test_numbers_in_more_than_one_form_are_text_and_said(self):
        said = self.look("team;pay\nA;1,000.5\nB;1.000,5\nC;7\n")[1]
        self.assertIn("text, though most of it is numbers or dates, in no one form", said)
        self.assertIsNone(self.column("pay")["written as"])
        self.assertNotIn("'team': 3 different; text, though", said)

    def test_the_reading_that_is_chosen_is_followed(self):
        for form, due in (("1,234", ["1250", "7"]), ("1234,5", ["1250", "7000"])):
            with self.subTest(form):
                self.choices.unlink(missing_ok=True)
                self.out = self.folder / form
                decimals = [] if form == "1,234" else ["pay.decimals=3"]
                self.assertEqual(self.pays(["1,250", "7"], f"pay.written as={form}", *decimals), due)

    def test_a_leading_zero_is_no_group_of_thousands(self):
        self.look("team;p\nA;0.125\nB;2.375\n")
        self.assertEqual(self.column("p")["written as"], "1234.5")

    def test_dates_become_numbers(self):
        self.made("day,pay\n31.01.2017,5\n1.2.2018,7\n", "day=number", "pay=sum")
        self.assertEqual([row[0] for row in self.table()], ["day", "20170131", "20180201"])

    def test_a_time_of_day_is_left_off_and_said(self):
        said = self.made("day,pay\n2017-01-31 12:30:00,5\n2017-02-01 01:02:03,7\n", "day=number", "pay=sum")
        self.assertEqual([row[0] for row in self.table()], ["day", "20170131", "20170201"])
        self.assertIn("without the time of day", said)

    def test_a_date_with_two_readings_is_asked_about(self):
        said = self.look("day,pay\n01/02/2024,5\n02/02/2024,7\n")[1]
        self.assertIn("'01/02/2024' may be 20240201 (written as DD/MM/YYYY), or 20240102 (written as MM/DD/YYYY)", said)
        self.assertEqual(self.column("day")["written as"], "?")

    def test_two_readings_dont_matter_for_a_text(self):
        self.made("day,pay\n01/02/2024,5\n02/02/2024,7\n", "day=text", "pay=sum")
        self.assertEqual(self.table()[1], ["01/02/2024", "5"])

    def test_a_date_that_shows_its_order_isnt_asked_about(self):
        self.look("day,pay\n01/02/2024,5\n13/02/2024,7\n")
        self.assertEqual(self.column("day")["written as"], "DD/MM/YYYY")

    def test_no_such_day_is_no_date(self):
        said = self.look("day,pay\n2024-02-30,5\n2024-02-28,7\n2024-02-29,1\n")[1]
        self.assertIn("but 1 value not, as '2024-02-30'", said)
        self.choose("day=number", "pay=sum", "protect=none", "range=none")
        self.assertIn("row 2, column 'day': '2024-02-30' isn't a date", self.make()[1])

    def test_numbers_end_at_ten_to_the_twelfth(self):
        self.assertEqual(self.pays(["1000000000000", "-1000000000000", "7"]), ["1000000000000", "-1000000000000", "7"])
        self.choices.unlink()
        self.out = self.folder / "other"
        said = self.refused("team,pay\nA,1000000000001\nB,-7\nC,8\n", "team=text", "pay=sum")
        self.assertIn("row 2, column 'pay': '1000000000001' is beyond 1,000,000,000,000", said)

    def test_steps_count_for_the_end_of_numbers(self):
        said = self.refused("team,pay\nA,10000000000.01\nB,7\n", "team=text", "pay=sum")
        self.assertIn("is beyond 1,000,000,000,000, counted in steps of 0.01", said)

    def test_a_number_of_400_digits_is_named_in_short(self):
        said = self.refused(f"team,pay\nA,{'9' * 400}\nB,7\n", "team=text", "pay=sum")
        self.assertIn("(400 characters) is beyond", said)
        self.assertLess(len(said), 300)

    def test_bad_cells_are_named_by_row_and_column(self):
        rows = [f"t{number},{'x' if number % 2 else number},{'y' if number == 4 else 1}" for number in range(48)]
        self.look("team,pay,age\n" + "\n".join(rows) + "\n47,1,1\n0,1,1\n1,1,1\n")
        self.choose("team=text", "pay=sum", "age=number", "protect=none", "range=none")
        status, said = self.make()
        self.assertEqual((status, self.out.exists()), (1, False))
        self.assertIn("row 3, column 'pay': 'x' isn't a number written as 1234\n", said)
        self.assertIn("row 6, column 'age': 'y' isn't a number", said)
        self.assertEqual(said.count("isn't a number written"), 20)
        self.assertIn("and 5 more", said)


class Missing(TableTest):
    GAPS = "team,age,pay\nA,30,5\nB,NA,7\nC,41,NA\nD,52,\nNA,60,9\n"
    CHOSEN = ("team=text", "team.missing=keep", "age=number", "age.missing=mark", "pay=sum")

    def test_what_looks_missing_is_asked_about(self):
        said = self.look(self.GAPS)[1]
        self.assertIn("where it says '' (1), 'NA' (1)", said)
        self.assertEqual([self.column(name)["missing"] for name in ("team", "age", "pay")], ["?"] * 3)
        self.choose("team=text", "age=number", "pay=sum", "protect=none", "range=none")
        self.assertIn("team.missing\nage.missing\npay.missing", self.make()[1])

    def test_rows_without_a_secret_are_dropped_and_counted(self):
        said = self.made(self.GAPS, *self.CHOSEN, "pay.missing=drop the row")
        self.assertEqual(
            self.table(),
            [["team", "age", "age_known", "pay"], ["A", "30", "1", "5"], ["B", "0", "0", "7"], ["NA", "60", "1", "9"]],
        )
        self.assertIn(
            "dropped 2 rows of 5, for what they lack: 'pay' 2. In the file, with the header as row 1: 4, 5", said
        )
        self.assertIn("1 gap kept as 0, with age_known beside it", said)

    def test_a_row_that_lacks_two_is_dropped_once(self):
        said = self.made(
            "team,age,pay\nA,30,5\nB,NA,NA\nC,NA,7\nD,2,9\n",
            "team=text",
            "age=number",
            "pay=sum",
            "missing=drop the row",
        )
        self.assertIn("dropped 2 rows of 4, for what they lack: 'age' 2, 'pay' 1.", said)
        self.assertEqual([row[0] for row in self.table()], ["team", "A", "D"])

    def test_gaps_of_dropped_rows_arent_counted_as_kept(self):
        said = self.made(
            "age,pay\nNA,5\nNA,NA\n3,8\n4,1\n", "age=number", "age.missing=mark", "pay=sum", "pay.missing=drop the row"
        )
        self.assertIn("1 gap kept as 0", said)

    def test_a_secret_has_no_other_way_than_dropping(self):
        for way in ("mark", "keep"):
            with self.subTest(way):
                self.choices.unlink(missing_ok=True)
                said = self.refused(self.GAPS, *self.CHOSEN, f"pay.missing={way}")
                self.assertIn(f"'pay': \"missing\" can't be '{way}' for sum, which takes: drop the row", said)

    def test_na_can_be_a_value(self):
        self.look("land,pay\nNA,5\nDE,7\nFR,2\n")
        text = (
            self.choices.read_text()
            .replace('"missing is": [\n    "NA"\n   ]', '"missing is": []')
            .replace('"missing": "?"', '"missing": null')
        )
        self.choices.write_text(text)
        self.choose("land=text", "pay=sum", "protect=none", "range=none")
        self.assertEqual(self.make()[0], 0)
        self.assertEqual(self.table()[-1], ["NA", "5"])

    def test_no_row_that_is_left_is_refused(self):
        self.assertIn(
            "no row is left: 2 rows dropped",
            self.refused("a,pay,b\n1,,5\n2,7,\n", "a=text", "pay=sum", "b=sum", "missing=drop the row"),
        )


class Guards(TableTest):
    def two(self, first, second, kinds=("sum", "sum")):
        rows = "".join(f"{'uvw'[number % 3]},{a},{b}\n" for number, (a, b) in enumerate(zip(first, second)))
        return "team,a,b\n" + rows, ["team=text", f"a={kinds[0]}", f"b={kinds[1]}"]

    def refusal(self, first, second, kinds=("sum", "sum")):
        self.choices.unlink(missing_ok=True)
        text, words = self.two(first, second, kinds)
        return self.refused(text, *words)

    def test_two_secret_columns_that_follow_from_each_other_are_refused(self):
        numbers = [5, 0, 7, -6, 7]
        for second, words in (
            ([5, 0, 7, -6, 7], "b is equal to a"),
            ([10, 0, 14, -12, 14], "b is 2 times a"),
            ([-5, 0, -7, 6, -7], "b is the negation of a"),
            ([-15, 0, -21, 18, -21], "b is -3 times a"),
            ([7, 2, 9, -4, 9], "b is a plus 2"),
            ([95, 100, 93, 106, 93], "b is the negation of a plus 100"),
        ):
            with self.subTest(words):
                self.assertIn(words + " in every row: answers on one would tell", self.refusal(numbers, second))

    def test_the_multiple_is_found_in_either_order(self):
        self.assertIn("a is 3 times b in every row", self.refusal([15, 0, 21], [5, 0, 7]))

    def test_one_number_as_sum_and_as_max_is_refused(self):
        self.assertIn("b is equal to a", self.refusal([5, 7, 6, 7], [5, 7, 6, 7], ("sum", "max")))

    def test_the_same_number_with_other_decimals_is_refused(self):
        self.assertIn("b is 10 times a", self.refusal(["5.1", "7.2", "6.3"], ["5.10", "7.20", "6.30"]))

    def test_a_secret_that_is_public_too_is_refused(self):
        for kind, second, words in (
            ("number", [5, 7, 6], "b is equal to a in every row, and a is public"),
            ("text", [5, 7, 6], "b is equal to a"),
            ("number", [-5, -7, -6], "the negation of a"),
            ("number", [2019, 2017, 2018], "the negation of a plus 2024"),
        ):
            with self.subTest(f"{kind}, {words}"):
                self.assertIn(words, self.refusal([5, 7, 6], second, (kind, "sum")))

    def test_columns_that_have_nothing_to_do_with_each_other_are_taken(self):
        for first, second in (
            ([5, 7, 6, 7], [5, 7, 6, 8]),
            ([0, 0, 0, 0], [5, 7, 6, 8]),
            ([1, 2, 1, 2], [3, 5, 3, 6]),
            ([0, 1, 2, 3], [5, 5, 5, 5]),
        ):
            with self.subTest(str((first, second))):
                self.choices.unlink(missing_ok=True)
                self.out = self.folder / f"out{first[0]}{second[3]}{first[3]}"
                text, words = self.two(first, second)
                self.made(text, *words)

    def test_a_column_that_is_the_sum_of_two_others_is_pointed_out(self):
        said = self.made("t,a,b,c\nx,1,5,6\ny,2,5,7\nz,4,9,13\n", "t=text", "a=sum", "b=sum", "c=sum")
        self.assertIn("CAREFUL: c is a plus b in every row", said)

    def test_a_column_in_which_every_row_has_its_own_value_is_pointed_out(self):
        said = self.made("id,team,pay\n1,A,5\n2,A,7\n3,B,1\n", "id=number", "team=text", "pay=sum")
        self.assertIn("CAREFUL: every row has its own id", said)
        self.assertNotIn("its own team", said)

    def test_rows_that_stand_alone_are_counted(self):
        said = self.made("team,age,pay\nA,1,5\nA,1,7\nA,2,1\nB,1,4\n", "team=text", "age=number", "pay=sum")
        self.assertIn("2 of 4 rows have public values that no other row has", said)

    def test_few_values_are_pointed_out(self):
        said = self.made("team,sick,pay\nA,0,5\nB,1,7\nA,1,2\n", "team=text", "sick=sum", "pay=sum")
        self.assertIn("CAREFUL: sick is always one of 0, 1", said)
        self.assertNotIn("pay is always", said.replace("pay is always one of 2, 5, 7", ""))

    def test_a_public_column_that_fixes_a_secret_is_pointed_out(self):
        said = self.made("grade,pay\nA,5\nB,7\nA,5\nC,9\nB,7\nC,9\n", "grade=text", "pay=sum")
        self.assertIn("CAREFUL: grade, which is public, fixes pay", said)


class Splits(TableTest):
    def long(self, rows, regions=3):
        return "id,region,pay\n" + "".join(
            f"{number},{'r' + str(number % regions)},{number * number % 97}\n" for number in range(rows)
        )

    def test_4096_rows_are_one_table_and_4097_arent(self):
        self.made(self.long(4096), "id=number", "region=text", "pay=sum")
        self.assertEqual(len(self.table()), 4097)
        self.choices.unlink()
        self.out = self.folder / "more"
        said = self.refused(self.long(4097), "id=number", "region=text", "pay=sum")
        self.assertIn("split by=region: 3 parts of 1,365 to 1,366 rows", said)
        self.assertIn("4,097 rows are left", said)

    def test_each_part_is_a_folder_with_its_rows(self):
        said = self.made(self.long(1300), "id=number", "region=text", "pay=sum", "split by=region")
        self.assertEqual(sorted(path.name for path in self.out.iterdir()), ["r0", "r1", "r2"])
        self.assertIn("r0: the 434 rows with region 'r0', a table with a journal of its own", said)
        found = sorted(int(row[0]) for part in ("r0", "r1", "r2") for row in self.table(part)[1:])
        self.assertEqual(found, list(range(1300)))
        self.assertEqual({row[1] for row in self.table("r1/public")[1:]}, {"r1"})

    def test_a_part_that_is_still_too_long_is_refused(self):
        said = self.refused(self.long(4098, regions=1), "id=number", "region=text", "pay=sum", "split by=region")
        self.assertIn("region 'r0': 4,098 rows", said)

    def test_two_columns_together_split(self):
        rows = "".join(f"{'ab'[number % 2]},{'cd'[number // 2 % 2]},{number}\n" for number in range(9600))
        self.assertIn("split by=x,y: 4 parts of 2,400 to 2,400 rows", self.look("x,y,pay\n" + rows)[1])
        self.choose("x=text", "y=text", "pay=sum", "protect=none", "range=none", "split by=x,y")
        self.assertEqual(self.make()[0], 0)
        self.assertEqual(sorted(path.name for path in self.out.iterdir()), ["a_c", "a_d", "b_c", "b_d"])

    def test_a_table_is_split_by_public_columns_alone(self):
        self.assertIn(
            "has to be the name of a public column",
            self.refused(self.long(1300), "id=number", "region=text", "pay=sum", "split by=pay"),
        )

    def test_parts_whose_names_would_be_alike_stay_apart(self):
        rows = "".join(f"{('a b', 'a-b')[number % 2]},{number}\n" for number in range(60))
        self.made("x,pay\n" + rows, "x=text", "pay=sum", "split by=x")
        self.assertEqual(sorted(path.name for path in self.out.iterdir()), ["a_b", "a_b_2"])


class Choices(TableTest):
    def test_nothing_is_made_while_a_choice_is_open(self):
        self.look(STAFF)
        status, said = self.make()
        self.assertEqual((status, self.names()), (1, ["t.choices.json", "t.csv"]))
        self.assertIn("still to be chosen:\nteam\nage\nsalary\nprotect", said)

    def test_choose_says_what_is_left(self):
        self.look(STAFF)
        self.assertIn("still open: team, age, salary.range, protect", self.choose("salary=sum")[1])
        self.assertIn("nothing is open any more", self.choose("others=text", "protect=none", "range=none")[1])

    def test_choose_asks_for_each_open_choice(self):
        self.look(STAFF)
        with mock.patch("builtins.input", side_effect=["text", "nmber", "number", "sum", "0-9", "0 to none", "none"]) as asked:
            said = self.choose()[1]
        self.assertIn("age can't be 'nmber'", said)
        self.assertIn("'0-9' isn't a range: write LOW to HIGH, as 0 to none", said)
        self.assertIn("(the range that people know these numbers to be in: LOW to HIGH", asked.call_args_list[4].args[0])
        self.assertEqual(
            [call.args[0].split(" ")[0].rstrip("?") for call in asked.call_args_list],
            ["team", "age", "age", "salary", "salary.range", "salary.range", "protect"],
        )
        self.assertEqual(self.column("salary")["range"], "0 to none")
        self.assertEqual(self.make()[0], 0)

    def test_words_that_choose_nothing_change_nothing(self):
        self.look(STAFF)
        before = self.choices.read_bytes()
        for word in (
            "salary",
            "pay=sum",
            "salary=secret",
            "salary.decimals=-1",
            "salary.seen=x",
            "protect=salary",
            "wave=x",
        ):
            with self.subTest(word):
                self.assertEqual(self.choose("team=text", word)[0], 1)
                self.assertEqual(self.choices.read_bytes(), before)

    def test_a_file_of_choices_that_isnt_one_is_refused(self):
        self.look(STAFF)
        self.choose(*STAFF_KINDS, "protect=none", "range=none")
        good = self.chosen()
        forms = [
            [],
            {**good, "more": 1},
            {**good, "columns": [1]},
            {**good, "columns": [{**good["columns"][0], "decimal": 2}]},
            {**good, "wave": True},
            {**good, "split by": "team"},
            {**good, "separator": 3},
            {key: value for key, value in good.items() if key != "protect"},
        ]
        for form in forms + ["{", "[" * 100000]:
            with self.subTest(str(form)[:60]):
                self.choices.write_text(form if isinstance(form, str) else json.dumps(form))
                status, said = self.make()
                self.assertEqual((status, self.out.exists()), (1, False), said)
                self.assertIn(str(self.choices), said)

    def test_choices_that_cant_be_followed_are_refused(self):
        for words, due in (
            (("team=sum",), "'team' can't be sum: its cells aren't numbers in one form, and a text is public or left out"),
            (("age=sum", "salary=number", "team=sum"), "'team' can't be sum"),
            (("team=leave out", "age=leave out"), "at least one public"),
            (("salary.decimals=13",), "'salary' has numbers of 13 decimals, and at most 12 are kept. A secret number is never rounded"),
            (("age.decimals=13",), "it is 0 to 12"),
            (("wave=2",), "it is 1, or null"),
            (("salary.range=100.5 to none",), "'100.5 to none' has more decimals than the column"),
            (("salary.range=101 to 100",), "'101 to 100' isn't a range"),
            (("salary.range=100",), "'100' isn't a range"),
            (("salary.range=100 to much",), "'100 to much' isn't a range"),
            (("salary.range=101 to none",), "row 2 has a number that isn't in the range '101 to none'"),
            (("salary.range=none to 204",), "salary: row 3 has a number that isn't in the range 'none to 204'"),
        ):
            with self.subTest(str(words)):
                self.choices.unlink(missing_ok=True)
                self.assertIn(due, self.refused(STAFF, *STAFF_KINDS, *words))

    def test_a_range_is_asked_of_secret_columns_alone_and_of_older_files_too(self):
        self.look(STAFF)
        self.choose(*STAFF_KINDS, "protect=none")
        older = self.chosen()
        for column in older["columns"]:
            del column["range"]
        self.choices.write_text(json.dumps(older))
        self.assertIn("still to be chosen:\nsalary.range\n", self.make()[1])
        self.choose("range=100 to none")
        self.assertEqual(self.make()[0], 0)

    def test_a_range_is_in_the_units_of_the_file(self):
        self.made("team,pay\nA,10.50\nB,20\n", "team=text", "pay=sum", "pay.range=10.50 to 20.00")
        self.choices.unlink()
        self.assertIn(
            "pay: row 2 has a number that isn't in the range '10.51 to none'",
            self.refused("team,pay\nA,10.50\nB,20\n", "team=text", "pay=sum", "pay.range=10.51 to none"),
        )

    def test_a_date_isnt_secret(self):
        self.assertIn("a date can be public", self.refused("t,day\nA,2024-01-31\nB,2024-01-30\n", "t=text", "day=sum"))

    def test_more_columns_than_a_table_has_are_refused(self):
        many = ",".join(f"c{number}" for number in range(33)) + "\n" + ",".join(map(str, range(33))) + "\n"
        self.assertIn("here it would have 33, 0 of them secret", self.refused(many, "others=number"))
        self.choices.unlink()
        self.assertIn(
            "here it would have 10, 9 of them secret",
            self.refused(many, *(f"c{number}=sum" for number in range(9)), "c9=text", "others=leave out"),
        )

    def test_other_titles_than_those_that_were_looked_at_are_refused(self):
        self.look(STAFF)
        self.choose(*STAFF_KINDS, "protect=none", "range=none")
        self.file.write_text(STAFF.replace("age", "old"))
        self.assertIn("aren't those that the choices were made for: 'team', 'old', 'salary'", self.make()[1])
        self.assertFalse(self.out.exists())


class Order(TableTest):
    """Rows stand by their public cells, and those that are alike by chance: nothing of a secret is seen in their order."""

    def test_rows_stand_in_the_order_of_their_public_cells(self):
        said = self.made("pay,age,team\n1,10,QA\n2,9,QA\n3,-5,QA\n4,41,DEV\n", "pay=sum", "age=number", "team=text")
        self.assertEqual(
            self.table(),
            [["pay", "age", "team"], ["3", "-5", "QA"], ["2", "9", "QA"], ["1", "10", "QA"], ["4", "41", "DEV"]],
        )
        self.assertEqual(self.table("public"), [row[1:] for row in self.table()])
        self.assertIn("rows: in the order of their public cells, those that are alike by chance", said)

    def alike(self, name):
        """The pays of 40 people of one team, in the order in which they are written; in the file they are sorted."""
        self.out = self.folder / name
        self.choices.unlink(missing_ok=True)
        self.made("team,pay\n" + "".join(f"A,{pay}\n" for pay in range(100, 140)), "team=text", "pay=sum")
        pays = [int(row[1]) for row in self.table()[1:]]
        self.assertEqual(sorted(pays), list(range(100, 140)))
        return pays

    def test_rows_that_are_alike_stand_by_chance(self):
        pays = self.alike("one")
        neighbours = sum(abs(one - other) == 1 for one, other in zip(pays, pays[1:]))
        self.assertLess(neighbours, 20)
        self.assertNotEqual(self.alike("other"), pays)

    def test_nobody_can_set_the_chance(self):
        random.seed(5)
        pays = self.alike("one")
        random.seed(5)
        self.assertNotEqual(self.alike("other"), pays)

    def test_parts_stand_in_the_order_of_their_values(self):
        said = self.made(
            "pay,team\n" + "".join(f"{pay},{'BA'[pay % 2]}\n" for pay in range(50)), "pay=sum", "team=text", "split by=team"
        )
        self.assertLess(said.index("A: the 25 rows"), said.index("B: the 25 rows"))
        self.assertNotEqual([row[0] for row in self.table("A")[1:]], [str(pay) for pay in range(1, 50, 2)])


class Written(TableTest):
    def schema(self, where=""):
        return json.loads((self.out / where / "schema.json").read_text())

    def test_the_table_is_its_owners_alone(self):
        os.umask(0o022)
        self.made(STAFF, *STAFF_KINDS)
        modes = {
            name: stat.S_IMODE((self.out / name).stat().st_mode)
            for name in ("table.csv", "public/table.csv", "schema.json", "")
        }
        self.assertEqual(modes, {"table.csv": 0o600, "public/table.csv": 0o644, "schema.json": 0o644, "": 0o755})
        self.assertEqual(stat.S_IMODE(self.choices.stat().st_mode), 0o600)

    def test_the_public_folder_has_the_public_columns_alone(self):
        self.made("team,age,salary\nQA,30,918273\nQA,41,564738\nDEV,41,192837\n", *STAFF_KINDS)
        self.assertEqual(self.table("public"), [["team", "age"], ["DEV", "41"], ["QA", "30"], ["QA", "41"]])
        self.assertEqual(
            sorted(path.name for path in (self.out / "public").iterdir()), ["notes.json", "schema.json", "table.csv"]
        )
        for path in (self.out / "public").iterdir():
            self.assertNotRegex(path.read_text(), "918273|564738|192837")
        self.assertEqual(self.schema("public"), self.schema())

    def test_the_schema_lists_the_columns(self):
        self.made(STAFF, *STAFF_KINDS)
        self.assertEqual(
            self.schema(),
            {
                "columns": [
                    {"name": "team", "is": "text"},
                    {"name": "age", "is": "number"},
                    {"name": "salary", "is": "sum"},
                ]
            },
        )

    def test_wave_is_a_public_number(self):
        said = self.made(STAFF, *STAFF_KINDS, "wave=1")
        self.assertEqual([row[-1] for row in self.table()], ["wave", "1", "1", "1"])
        self.assertEqual(self.table("public")[0], ["team", "age", "wave"])
        self.assertEqual(self.schema()["columns"][-1], {"name": "wave", "is": "number"})
        self.assertIn("wave: public number", said)

    def test_a_column_that_is_called_wave_already_is_said(self):
        self.assertIn(
            "two columns would have one name: wave",
            self.refused(STAFF.replace("age", "wave"), "team=text", "wave=number", "salary=sum", "wave=1"),
        )

    def test_nothing_is_overwritten(self):
        self.made(STAFF, *STAFF_KINDS)
        before = {name: (self.folder / name).read_bytes() for name in self.names() if (self.folder / name).is_file()}
        self.assertIn("is already there", self.look(STAFF)[1])
        self.assertIn("is already there, and nothing is overwritten", self.make()[1])
        self.assertEqual(
            {name: (self.folder / name).read_bytes() for name in self.names() if (self.folder / name).is_file()}, before
        )

    def test_a_file_that_isnt_there_is_named(self):
        self.assertEqual(self.prepare("look", self.file), (1, f"prepare: {self.file}: No such file or directory\n"))

    def test_a_folder_isnt_a_file_to_look_at(self):
        for place in (".", "/", self.folder):
            status, said = self.prepare("look", place)
            self.assertEqual(status, 1)
            self.assertIn("prepare: ", said)
        self.assertEqual(self.names(), [])

    def test_an_empty_folder_isnt_overwritten_either(self):
        self.look(STAFF)
        self.choose(*STAFF_KINDS, "protect=none", "range=none")
        self.out.mkdir()
        self.assertIn("is already there", self.make()[1])
        self.assertEqual(list(self.out.iterdir()), [])

    def test_a_folder_that_comes_while_it_writes_isnt_overwritten(self):
        def comes(folder, program):
            self.out.mkdir(exist_ok=True)
            (self.out / "kept").write_text("mine")

        self.look(STAFF)
        self.choose(*STAFF_KINDS, "protect=none", "range=none")
        with mock.patch("preparing.writing.try_program", side_effect=comes):
            self.assertIn("is already there", self.make()[1])
        self.assertEqual(self.names(), ["out", "out/kept", "t.choices.json", "t.csv"])

    def test_blanks_around_a_text_go_and_are_counted(self):
        said = self.made("team,pay\n A ,5\nB,7\n", "team=text", "pay=sum")
        self.assertIn("1 cell without the blanks around it", said)
        self.assertEqual(self.table("public")[1], ["A"])

    def test_columns_of_one_title_are_counted_apart(self):
        said = self.made("a,a,pay\n x,y,5\nz, u,7\nv, w,1\n", "a=text", "a_2=text", "pay=sum")
        self.assertIn("'a': public text, 1 cell without the blanks around it", said)
        self.assertIn("'a': public text, named a_2, 2 cells without the blanks around it", said)

    def test_what_the_program_refuses_isnt_left_there(self):
        program = self.folder / "auditor"
        program.write_text("#!/bin/sh\n[ $1 = init ] || { echo 'table: fault 2' >&2; exit 4; }\n")
        program.chmod(0o755)
        with mock.patch.dict(os.environ, {"AUDITOR": str(program)}):
            self.assertIn(
                "auditor simulate doesn't take the files, so nothing is written: table: fault 2",
                self.refused(STAFF, *STAFF_KINDS),
            )

    def test_a_stop_while_it_writes_leaves_nothing(self):
        self.look(STAFF)
        self.choose(*STAFF_KINDS, "protect=none", "range=none")
        before = self.names()
        for name in ("preparing.writing.write_table", "preparing.writing.try_program", "os.rename"):
            for stop in (KeyboardInterrupt, OSError(28, "No space left on device"), MemoryError):
                with self.subTest(f"{name}, {stop}"), mock.patch(name, side_effect=stop):
                    self.assertEqual(self.make()[0], 1)
                    self.assertEqual(self.names(), before)

    def test_wrong_arguments_show_the_usage(self):
        for words, due in (((), 2), (("look",), 2), (("look", "--most"), 2), (("help", "me"), 2), (("help",), 0), (("--help",), 0), (("look", "--help"), 0)):
            status, said = self.prepare(*words)
            self.assertEqual(status, due)
            self.assertIn("prepare.py look FILE", said)
        status, said = self.prepare("make", "a", "b")
        self.assertEqual(status, 2)
        self.assertIn("prepare.py make FILE CHOICES FOLDER", said)
        self.assertNotIn("prepare.py look FILE", said)

    def test_help_on_one_command_reads_no_file(self):
        for command in ("look", "choose", "lines", "make", "renew", "add", "sql", "take", "check"):
            for word in ("-h", "--help"):
                status, said = self.prepare(command, word)
                self.assertEqual(status, 0, said)
                self.assertTrue(said.startswith(f"    prepare.py {command} "), said)
                self.assertLessEqual(len(said.splitlines()), 8)

    def test_what_is_missing_is_said_last(self):
        self.assertEqual(self.prepare()[1].splitlines()[-1],
                         "prepare: a command is missing. There are look, choose, lines, make, renew, add, sql, take, check")
        self.assertEqual(self.prepare("make", "a")[1].splitlines()[-1], "prepare: make takes the arguments above")
        self.assertTrue(self.prepare("maek", "a")[1].splitlines()[-1].startswith("prepare: there is no command 'maek'."))
        self.assertIn("isn't an option of look", self.prepare("look", self.file, "seperator=;")[1])


if __name__ == "__main__":
    unittest.main()

"""Totals that must stay open: what prepare.py makes of them, and its reader of conditions beside the program's.

AUDITOR=.. /usr/bin/python3 -m unittest test_protected
"""

import csv
import json
import os
import random
import subprocess
import unittest
from unittest import mock

from table_kit import AUDITOR, WITHOUT_LIMITS, TableTest, needs_program, said_by
from test_ask import KINDS, WRONG

import ask
from preparing.conditions import Wrong, read_condition

STAFF = "team,age,salary,bonus\nQA,30,100,7\nQA,41,205,3\nDEV,41,310,5\n"
STAFF_KINDS = ("team=text", "age=number", "salary=sum", "bonus=max", "range=none", *WITHOUT_LIMITS)
SITES = "".join(f"{('Leeds', 'York')[number % 2]},{('QA', 'OPS', 'DEV')[number // 40]},{number % 97}\n" for number in range(120))
PUBLIC = {"team": "text", "age": "number"}
TEAMS = ("QA", "Bob's", "", "it's 'so'", "Zoë")
ROWS = [{"team": TEAMS[number % 5], "age": age} for number, age in enumerate((-3, 0, 7, 30, 41, 41, 52, 10**12, -(10**12), 8))]


def place_of_fault(text):
    """The byte from which on a text isn't a condition, or None if it is one."""
    try:
        read_condition(text, PUBLIC)
    except Wrong as wrong:
        return wrong.at
    return None


class Conditions(unittest.TestCase):
    def test_conditions_hold_for_the_rows_that_they_mean(self):
        for text, due in (
            ("all", range(10)),
            ("not all", ()),
            ("team = 'QA'", (0, 5)),
            ("team != 'QA' and age < 8", (1, 2, 8)),
            ("team = 'Bob''s' or team = ''", (1, 2, 6, 7)),
            ("team in ('it''s ''so''', 'Zoë')", (3, 4, 8, 9)),
            ("age in (41,-3 , 007)", (0, 2, 4, 5)),
            ("not age >= -3", (8,)),
            ("age > 1 and age <= 41 or team = 'QA' and age = -3", (0, 2, 3, 4, 5, 9)),
            ("age > 1 and (age <= 8 or team = 'QA')", (2, 5, 9)),
            ("not team = 'QA' and age = 41", (4,)),
            ("not(team = 'QA' and age = 41)", (0, 1, 2, 3, 4, 6, 7, 8, 9)),
            ("age = 1000000000000\t\r\nor age=-1000000000000", (7, 8)),
            ("age = -0", (1,)),
        ):
            with self.subTest(text):
                holds = read_condition(text, PUBLIC)
                self.assertEqual([number for number, row in enumerate(ROWS) if holds(row)], list(due))

    def test_what_isnt_a_condition_has_its_place(self):
        for text, at in (
            ("team < 'QA'", 5),
            ("age >= 'x'", 7),
            ("age >=", 6),
            ("team = 'it", 7),
            ("team = 'a''", 7),
            ("(" * 65, 64),
            ("(" * 64, 64),
            ("not " * 65 + "all", 256),
            ("not " * 64 + "all", None),
            ("(" * 64 + "all" + ")" * 64, None),
            (" or ".join(["all"] * 256), None),
            ("not " + " or ".join(["all"] * 256), None),
            (" or ".join(["all"] * 257), 256 * 7),
            ("", 0),
            ("  ", 2),
            ("age = 1000000000001", 6),
            ("age = " + "0" * 5000 + "7", None),
            ("age = -", 6),
            ("age ! 3", 4),
            ("Age = 3", 0),
            ("all all", 4),
            ("age in ()", 8),
            ("age in (3,)", 10),
            ("(age = 3", 8),
            ("age = 3)", 7),
            ("team = 'ë' ë", 12),
        ):
            with self.subTest(text[:40]):
                self.assertEqual(place_of_fault(text), at)

    def test_the_table_of_wrong_conditions_has_its_places(self):
        public = {name: kind for name, kind in KINDS.items() if kind in ("text", "number")}
        for text, at, _, better in WRONG:
            with self.subTest(text):
                with self.assertRaises(Wrong) as found:
                    read_condition(text, public)
                self.assertEqual(found.exception.at, at)
                if better:
                    read_condition(better, public)

    @needs_program
    def test_the_program_counts_the_same_rows_and_stops_at_the_same_bytes(self):
        draw = random.Random(int(os.environ.get("SEED", "3")))
        texts = [drawn(draw, 4) for _ in range(700)]
        texts = [spoilt(draw, text) if draw.random() < 0.6 else text for text in texts]
        texts += [" or ".join(["all"] * number) for number in (256, 257)] + ["(" * 64, "(" * 65, "not " * 65 + "all"]
        faults = 0
        for text, reply in zip(texts, self.replies(texts), strict=True):
            with self.subTest(text):
                at = place_of_fault(text)
                faults += at is not None
                due = {"refused": "where", "at": at} if at is not None else {"count": sum(map(read_condition(text, PUBLIC), ROWS))}
                self.assertEqual(reply, due)
        self.assertTrue(200 < faults < 500, faults)

    def replies(self, texts):
        """What the program says to a count over each condition."""
        folder = table_folder(self)
        subprocess.run([AUDITOR, "init"], cwd=folder, check=True)
        lines = "".join(json.dumps({"ask": "count", "where": text}) + "\n" for text in texts)
        run = subprocess.run([AUDITOR, "serve", "--batch", "64"], cwd=folder, input=lines.encode(), capture_output=True, check=True)
        return [json.loads(line) for line in run.stdout.splitlines()]


def table_folder(test):
    """A folder with the rows of this page as a table."""
    case = TableTest()
    case.setUp()
    test.addCleanup(case.doCleanups)
    columns = [{"name": name, "is": kind} for name, kind in {**PUBLIC, "pay": "sum"}.items()]
    (case.folder / "schema.json").write_text(json.dumps({"columns": columns}))
    with open(case.folder / "table.csv", "w", encoding="utf-8", newline="") as file:
        csv.writer(file).writerows([["team", "age", "pay"], *([row["team"], row["age"], 5 * at] for at, row in enumerate(ROWS))])
    return case.folder


def drawn(draw, depth):
    """A random condition."""
    gap = draw.choice(["", " ", "\n\t "])
    if depth and draw.random() < 0.5:
        first, second = drawn(draw, depth - 1), drawn(draw, depth - 1)
        return draw.choice([f"{first} and {second}", f"{first} or {second}", f"({gap}{first}{gap})", f"not {first}", f"not({second})"])
    number = draw.choice(["-3", "7", "41", "0041", "1000000000000", "-0"])
    text = "'" + draw.choice(TEAMS).replace("'", "''") + "'"
    return draw.choice([
        "all",
        f"age{gap}{draw.choice(['=', '!=', '<', '<=', '>', '>='])}{gap}{number}",
        f"team{gap}{draw.choice(['=', '!='])}{gap}{text}",
        f"age in{gap}({gap}{number},{gap}{draw.choice(['8', '52'])})",
        f"team in ({text}{gap})",
    ])


def spoilt(draw, text):
    """The text with something in it taken away, doubled or put in."""
    at = draw.randrange(len(text) + 1)
    piece = draw.choice(["'", "''", "=", "!", "-", "(", ")", ",", " not ", " or ", "in", "ë", "9", "10000000000000", "<", "pay", "\u00a0"])
    return draw.choice([text[:at] + text[at + 1 :], text[:at] + piece + text[at:], text[:at], text[:at] + text[at - 2 :]])


class Protecting(TableTest):
    def schema(self, where=""):
        return json.loads((self.out / where / "schema.json").read_text())

    def protected(self, *groups, text=STAFF, kinds=STAFF_KINDS, words=()):
        """What `make` says if these groups stand in the file of choices; without the program, which may be older."""
        self.choices.unlink(missing_ok=True)
        self.assertEqual(self.look(text)[0], 0)
        self.assertEqual(self.choose(*kinds, "protect=none", "range=none", *words)[0], 0)
        self.choices.write_text(json.dumps({**self.chosen(), "protect": list(groups)}))
        with mock.patch.dict(os.environ, {"PATH": ""}):
            os.environ.pop("AUDITOR", None)
            return self.make()

    def stand_in(self, said, status):
        """A program that takes every table, and says this of what `simulate` reads."""
        program = self.folder / "auditor"
        program.write_text(f"#!/bin/sh\n[ $1 = init ] && exit 0\necho '{said}' >&2\nexit {status}\n")
        program.chmod(0o755)
        return mock.patch.dict(os.environ, {"AUDITOR": str(program)})

    def test_totals_stand_in_both_schemas(self):
        group = {"column": "salary", "where": "team = 'QA'"}
        status, said = self.protected(group)
        self.assertEqual(status, 0, said)
        self.assertIn("protected: the total of salary where team = 'QA', over 2 of 3 rows\n", said)
        self.assertNotIn("CAREFUL: this", said)
        self.assertEqual((self.schema()["protect"], self.schema("public")), ([group], self.schema()))

    def test_without_totals_the_schema_has_no_such_key(self):
        self.assertEqual(self.protected()[0], 0)
        self.assertEqual(list(self.schema()), ["columns"])

    def test_each_total_that_cant_be_protected_is_named_with_the_reason(self):
        for column, where, due in (
            ("age", "team = 'QA'", "the total of age where team = 'QA' can't be protected: age is public, so everyone knows"),
            ("bonus", "all", "the total of bonus where all can't be protected: bonus is max, and only totals of a column that is sum"),
            ("pay", "all", "there is no column 'pay'"),
            ("salary", "team == 'QA'", "= is written in place of ==\n  team == 'QA'\n        ^\n"),
            ("salary", "taem = 'QA'", "there is no column 'taem': did you mean team?\n  taem = 'QA'\n  ^\n"),
            ("salary", "bonus = 3", "bonus is secret, and a condition is over public columns alone: team, age"),
            ("salary", "age = 'QA'", "age is a column of numbers: its number is written without quotes"),
            ("salary", "", "the condition is empty: all means every row"),
            ("salary", "team =", "the condition ends too early"),
            ("salary", "all all", "not understood from byte 4 on\n  all all\n      ^\n"),
            ("salary", "(" * 65 + "all" + ")" * 65, "not understood from byte 64 on"),
        ):
            with self.subTest(where):
                status, said = self.protected({"column": "salary", "where": "age >= 41"}, {"column": column, "where": where})
                self.assertEqual((status, self.out.exists()), (1, False))
                self.assertIn(due, said)
                self.assertNotIn("age >= 41", said)

    def test_what_isnt_a_total_is_said(self):
        for entry in (1, [], {"column": "salary"}, {"column": "salary", "where": "all", "x": 1}, {"column": "salary", "where": 1}, "?"):
            with self.subTest(str(entry)):
                status, said = self.protected(entry)
                self.assertEqual((status, self.out.exists()), (1, False))
                self.assertIn('each entry has the keys "column" and "where", both texts', said)

    def test_all_limits_are_those_of_the_program(self):
        def groups(number):
            return [{"column": "salary", "where": f"age >= {age}"} for age in range(number)]

        def long(size):
            return {"column": "salary", "where": "all" + " " * (size - 3)}

        for protect, due in (
            (groups(64), None),
            (groups(65), "65 totals are to be protected, and at most 64 can be"),
            ([long(8192)], None),
            ([long(8193)], "its condition has 8,193 bytes, and at most 8,192 are read"),
            ([long(8192)] * 8, "the schema has 66,1"),
        ):
            with self.subTest(due):
                status, said = self.protected(*protect)
                self.assertEqual((status, self.out.exists()), (1, False) if due else (0, True), said)
                if due:
                    self.assertIn(due, said)
                else:
                    self.assertEqual(self.schema()["protect"], protect)
                    subprocess.run(["rm", "-r", self.out], check=True)

    def test_a_total_over_no_row_one_row_or_all_rows_is_pointed_out(self):
        for where, rows, due in (
            ("team = 'qa'", 0, "CAREFUL: no row satisfies this, so nothing is protected by it"),
            ("age < 41", 1, "CAREFUL: this is one row, whose number is kept open anyway"),
            ("age = 41 or age = 30", 3, "CAREFUL: these are all rows: the total of the whole table isn't answered"),
        ):
            with self.subTest(where):
                status, said = self.protected({"column": "salary", "where": where})
                self.assertEqual(status, 0, said)
                self.assertIn(f"protected: the total of salary where {where}, over {rows} of 3 rows\n{due}", said)
                subprocess.run(["rm", "-r", self.out], check=True)

    def test_conditions_are_over_the_columns_as_they_are_written(self):
        text = "when,height,pay\n2024-01-31,1.70,5\n2024-02-01,1.85,7\n2024-02-02,NA,9\n"
        kinds = ("when=number", "height=number", "height.missing=mark", "pay=sum", "wave=1")
        groups = [
            {"column": "pay", "where": "when >= 20240201 and wave = 1"},
            {"column": "pay", "where": "height_x100 > 180 or height_x100_known = 0"},
        ]
        status, said = self.protected(*groups, text=text, kinds=kinds)
        self.assertEqual(status, 0, said)
        self.assertEqual(said.count(", over 2 of 3 rows"), 2, said)
        status, said = self.protected({"column": "pay", "where": "height_x100 > 1.80"}, text=text, kinds=kinds)
        self.assertIn("height_x100 is kept in steps of 0.01: write 180", said)

    def test_each_part_of_a_table_has_all_totals_and_is_said_to_hold_its_rows(self):
        groups = [{"column": "pay", "where": where} for where in ("team = 'QA'", "site = 'York'", "site = 'York' and team = 'Q'")]
        status, said = self.protected(
            *groups, text="site,team,pay\n" + SITES, kinds=("site=text", "team=text", "pay=sum"), words=("split by=site",)
        )
        self.assertEqual(status, 0, said)
        self.assertIn("the total of pay where team = 'QA', over 40 of 120 rows, in Leeds 20, York 20, in each by itself\n", said)
        self.assertIn(
            "the total of pay where site = 'York', over 60 of 120 rows, in York 60, in each by itself\n"
            "CAREFUL: in York these are all rows",
            said,
        )
        self.assertIn("team = 'Q', over 0 of 120 rows\nCAREFUL: no row satisfies this", said)
        for place in ("Leeds", "York", "Leeds/public", "York/public"):
            self.assertEqual(self.schema(place)["protect"], groups)

    def test_totals_are_chosen_one_after_the_other(self):
        self.look(STAFF)
        self.assertIn("nothing is open any more", self.choose("protect=salary where team = 'QA'", *STAFF_KINDS)[1])
        self.assertEqual(self.choose("protect=salary  WHERE  team = ' where '")[0], 0)
        due = [{"column": "salary", "where": "team = 'QA'"}, {"column": "salary", "where": "team = ' where '"}]
        self.assertEqual(self.chosen()["protect"], due)
        for words, said in (
            ("salary where team = 'QA'", "is protected already"),
            ("pay where all", "no column is called 'pay'"),
            ("salary where", "isn't a total"),
            ("all", "isn't a total"),
            ("age where all", "the total of age where all can't be protected: age is public"),
            ("salary where age == 3", "= is written in place of ==\n  age == 3"),
        ):
            with self.subTest(words):
                self.assertIn(said, self.choose(f"protect={words}")[1])
                self.assertEqual(self.chosen()["protect"], due)
        self.choose("protect=none")
        self.assertEqual(self.chosen()["protect"], [])

    def test_a_terminal_is_asked_for_more_totals_until_there_are_no_more(self):
        self.look(STAFF)
        typed = ["text", "number", "sum", "none", "max", "none", "all", "salary where team = 'QA'", "salary where bonus = 3", "salary where age = 41", ""]
        with mock.patch("builtins.input", side_effect=typed) as asked:
            said = self.choose()[1]
        self.assertEqual([call.args[0].split(" ")[0].rstrip("?") for call in asked.call_args_list],
                         ["team", "age", "salary", "salary.range", "bonus", "bonus.range", "protect", "protect", *["another"] * 3])
        self.assertIn("bonus is secret, and a condition is over public columns alone: team, age\n  bonus = 3\n", said)
        self.assertEqual([group["where"] for group in self.chosen()["protect"]], ["team = 'QA'", "age = 41"])

    def test_the_input_may_end_after_a_total(self):
        self.look(STAFF)
        self.choose(*STAFF_KINDS)
        with mock.patch("builtins.input", side_effect=["salary where all", EOFError]):
            self.assertIn("nothing is open any more", self.choose()[1])
        self.assertEqual(len(self.chosen()["protect"]), 1)

    def test_words_that_arent_utf_8_are_said(self):
        self.look(STAFF)
        before = self.choices.read_bytes()
        status, said = self.choose("protect=salary where team = '\udcff'")
        self.assertEqual((status, self.choices.read_bytes()), (1, before))
        self.assertIn("has bytes in it that aren't UTF-8", said)

    def test_what_the_program_says_of_totals_is_put_in_words(self):
        self.look(STAFF)
        self.choose(*STAFF_KINDS, "protect=salary where age = 41", "protect=salary where team = 'QA'")
        for status, said, words in (
            (3, "schema: fault 3", "schema: fault 3. This auditor may be older than protected totals: choose protect=none"),
            (16, "schema: group 1 is bad", "schema: group 1 is bad. That is the total of salary where team = 'QA'"),
            (16, "schema: group 2 is bad", "schema: group 2 is bad\n"),
            (4, "table: fault 2", "table: fault 2\n"),
        ):
            with self.subTest(said), self.stand_in(said, status):
                status, found = self.make()
                self.assertEqual((status, self.out.exists()), (1, False))
                self.assertIn(f"auditor simulate doesn't take the files, so nothing is written: {words}", found)


OFFICE = "dept,age,salary,bonus\nQA,30,100,5\nQA,41,200,9\nOPS,41,300,1\nOPS,52,400,2\nDEV,28,500,3\nDEV,41,600,4\n"


@needs_program
class OverTheProgram(TableTest):
    """A table whose totals were worked out by hand: 300, 700 and 1100, together 2100."""

    def setUp(self):
        super().setUp()
        for status, said in (
            self.look(OFFICE),
            self.choose("dept=text", "age=number", "salary=sum", "bonus=max", "range=none", "protect=salary where dept = 'QA'"),
            self.make(),
        ):
            self.assertEqual(status, 0, said)
        self.assertNotIn("not tried with the program", said)

    def init(self):
        subprocess.run([AUDITOR, "init"], cwd=self.out, check=True)

    def ask(self, *questions):
        return said_by(ask.main, [self.out, *questions])[1].splitlines()

    def protect(self, *groups):
        """Writes these groups into the schema."""
        path = self.out / "schema.json"
        path.write_text(json.dumps({"columns": json.loads(path.read_text())["columns"], "protect": groups}))

    def test_no_list_of_answers_gives_a_protected_total(self):
        self.init()
        said = self.ask(
            "sum salary where dept = 'QA'",
            "sum salary",
            "sum salary where dept = 'OPS'",
            "sum salary where dept = 'DEV'",
            "avg salary where dept = 'QA'",
            "sum salary where not dept in ('OPS', 'DEV')",
            "max bonus where dept = 'QA'",
            "count where dept = 'QA'",
        )
        named = "not answered: This total is protected, so it is never answered."
        self.assertEqual([said[0], said[1], said[2], said[4], said[6], said[7]], [named, "2100", "700", named, "9", "2"])
        for line in (said[3], said[5]):
            self.assertIn("not answered: Some answer to this question", line)

    def test_the_program_takes_the_totals_that_are_taken_here(self):
        public = {"dept": "text", "age": "number"}
        conditions = [text.replace("team", "dept") for text, _, _, better in WRONG for text in (text, better) if text]
        taken = 0
        for where in conditions:
            with self.subTest(where):
                self.protect({"column": "salary", "where": "all"}, {"column": "salary", "where": where})
                run = subprocess.run([AUDITOR, "simulate"], cwd=self.public(), input=b"", capture_output=True)
                try:
                    read_condition(where, public)
                    due, taken = (0, b""), taken + 1
                except Wrong:
                    due = (16, b"schema: group 1 is bad\n")
                self.assertEqual((run.returncode, run.stderr), due)
        self.assertGreater(taken, 10)

    def public(self):
        """The folder of the public columns, with the schema that was written last."""
        (self.out / "public" / "schema.json").write_bytes((self.out / "schema.json").read_bytes())
        return self.out / "public"

    def test_a_total_that_cant_be_protected_is_said_by_its_place(self):
        self.init()
        for group in ({"column": "bonus", "where": "all"}, {"column": "pay", "where": "all"}, {"column": "salary", "where": "dept <"}):
            with self.subTest(str(group)):
                self.protect({"column": "salary", "where": "all"}, group)
                said, = self.ask("count")
                self.assertTrue(said.startswith("auditor: schema: group 1 is bad (in schema.json, under protect"), said)

    def test_a_total_that_was_answered_before_cant_be_protected_any_more(self):
        self.protect({"column": "salary", "where": "age > 99"})
        self.init()
        self.assertEqual(self.ask("sum salary where dept = 'QA'"), ["300"])
        self.protect({"column": "salary", "where": "dept = 'QA'"})
        said, = self.ask("count")
        self.assertTrue(said.startswith("auditor: record 0 should not have been released: group 0 (the journal is of another table, or"), said)


if __name__ == "__main__":
    unittest.main()

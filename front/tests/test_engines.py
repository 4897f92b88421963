"""The queries that prepare.py prints, run by engines: their lines are those of make, byte for byte.

PostgreSQL if Debian's is installed, SQLite as Python has it. AUDITOR=.. /usr/bin/python3 -m unittest test_engines
"""

import csv
import io
import random
import shutil
import sqlite3
import unittest

from lines_kit import LinesTest, text_of
from postgres import PROGRAMS, Server

from preparing import choices as choosing
from preparing.making import columns_to_write
from preparing.queries import DIALECTS, queries

TITLES = ["Region", "grade", "age", "weight", "height", "born", "kids", "left", "pay", "best", "least"]
KINDS = ("Region=text", "Region.missing=keep",
         "grade=text", "grade.missing is=NA", "grade.missing=drop the row", "grade.join=a+b as low", "grade.join=c+C as C",
         "age=number", "age.missing is=", "age.missing=drop the row", "age.bands=10", "weight=number",
         "height=number", "height.decimals=0", "height.rounded=down",
         "born=number", "born.written as=YYYY-MM-DD", "born.bands=0,19800101,20000101",
         "kids=number", "kids.missing is=", "kids.missing=mark", "left=leave out", "pay=sum", "pay.missing is=", "pay.missing=drop the row",
         "best=max", "best.missing is=", "best.missing=drop the row", "least=min")
TYPES = ("text", "text", "integer", "numeric", "double precision", "date", "integer", "text", "double precision", "bigint", "numeric")
REGIONS = ["Nord", "nord", "NORD", 'Süd, "Ost"', "Ö", "O\u0308", "two\nlines", "", " Nord ", "ß", "'s", "-"]


def drawn(number=4000, seed=3):
    """People with texts that engines like to take for one, gaps, decimals and dates, in 200 combinations of public cells."""
    draw = random.Random(seed)
    choices = (REGIONS, ["a", "b", "c", "C", "D", "na", "NA"], ["", -5, 0, 9, 10, 39, 40, 99], ["70.5", "-0.5", "71.0"],
               ["1.99", "-0.01", "2.00", "180.25"], ["1979-12-31", "1980-01-01", "2001-02-03"], ["", 0, 3])
    public = [[draw.choice(values) for values in choices] for _ in range(200)]
    rows = [[*draw.choice(public), "x", draw.choice(["", f"{draw.randrange(-99, 10**6) / 100:.2f}", "0.29", "1.15"]),
             draw.choice(["", draw.randrange(10**9)]), draw.randrange(-50, 50)] for _ in range(number)]
    return [TITLES, *rows]


class Engine(LinesTest):
    """A file of people, the choices on it, and the lines that make gives."""

    def setUp(self):
        super().setUp()
        self.condensed(text_of(drawn()), *KINDS)
        self.due = (self.out / "table.csv").read_bytes()
        self.assertGreater(len(self.due.splitlines()), 90)

    def check(self, lines):
        path = self.folder / "lines.csv"
        path.write_bytes(lines)
        return self.prepare("check", self.file, self.choices, path)

    def script(self, dialect):
        status, said = self.prepare("sql", self.choices, dialect)
        self.assertEqual(status, 0, said)
        return said


@unittest.skipUnless(PROGRAMS, "no PostgreSQL")
class PostgreSQL(Engine):
    def setUp(self):
        super().setUp()
        self.server = Server()
        self.server.start()
        self.addCleanup(self.server.remove)

    def load(self, collation=""):
        """A table with the people, as an office keeps them: by types, NULL for what is missing."""
        shutil.copy(self.file, self.server.folder)
        columns = ", ".join(f'"{title}" {kind}{collation if kind == "text" else ""}' for title, kind in zip(TITLES, TYPES))
        self.server.psql(f"CREATE TABLE people ({columns});\n\\copy people FROM '{self.file.name}' WITH (FORMAT csv, HEADER)\n")

    def test_its_lines_are_those_of_make_byte_for_byte(self):
        self.load()
        said = self.server.psql(self.script("postgresql"))
        self.assertEqual((self.server.folder / "table.csv").read_bytes(), self.due)
        left_out, not_whole = map(int, said.split())
        rows = drawn()[1:]
        lacking = sum(row[1] == "NA" or "" in (row[2], row[8], row[9]) for row in rows)
        self.assertEqual((left_out, not_whole), (lacking, 0))
        self.assertEqual(self.check((self.server.folder / "table.csv").read_bytes())[0], 0)
        status, said = self.prepare("take", self.server.folder / "table.csv", self.choices, self.folder / "taken")
        self.assertEqual(status, 0, said)
        for path in self.out.rglob("*.*"):
            self.assertEqual((self.folder / "taken" / path.relative_to(self.out)).read_bytes(), path.read_bytes())

    def test_a_collation_for_which_cases_are_one_changes_nothing(self):
        self.server.psql("CREATE COLLATION alike (provider = icu, locale = 'und-u-ks-level1', deterministic = false);")
        self.load(" COLLATE alike")
        self.assertEqual(self.server.psql("SELECT 'Nord' COLLATE alike = 'NORD';").strip(), "t")
        self.server.psql(self.script("postgresql"))
        self.assertEqual((self.server.folder / "table.csv").read_bytes(), self.due)

    def test_numbers_that_arent_whole_as_they_are_kept_are_counted(self):
        self.load()
        kept = "pay IS NOT NULL AND best IS NOT NULL AND age IS NOT NULL AND grade <> 'NA'"
        self.server.psql(f"UPDATE people SET pay = 0.125 WHERE ctid IN (SELECT ctid FROM people WHERE {kept} LIMIT 3);")
        self.assertEqual(self.server.psql(self.script("postgresql")).split()[1], "3")

    def test_a_sum_beyond_64_bits_isnt_wrapped(self):
        self.server.psql('CREATE TABLE many (dept text, pay bigint); INSERT INTO many SELECT \'QA\', 9223372036854775807 FROM generate_series(1, 5);')
        self.choices.unlink()
        self.chosen_for("dept,pay\nQA,5\n", "dept=text", "pay=sum")
        self.server.psql(self.prepare("sql", self.choices, "postgresql", "table=public.many")[1])
        self.assertEqual((self.server.folder / "table.csv").read_text(), "dept,people,pay\nQA,5,46116860184273879035\n")


class SQLite(Engine):
    def lines(self, kinds=None):
        """The lines by the query, in a database whose columns are of text, or of the given kinds; and what the two further queries say."""
        base = sqlite3.connect(":memory:")
        columns = ", ".join(f'"{title}" {kind}' for title, kind in zip(TITLES, kinds or ["text"] * len(TITLES)))
        base.execute(f"CREATE TABLE people ({columns})")
        with open(self.file, encoding="utf-8", newline="") as file:
            rows = list(csv.reader(file))[1:]
        base.executemany(f"INSERT INTO people VALUES ({', '.join('?' * len(TITLES))})", rows)
        columns = columns_to_write(choosing.read(self.choices))
        select, left_out, not_whole = queries(columns, DIALECTS["sqlite"], "people")
        text = io.StringIO(newline="")
        csv.writer(text, lineterminator="\r\n").writerows([[column.name for column in columns], *base.execute(select)])
        return text.getvalue().encode(), base.execute(left_out).fetchone()[0], base.execute(not_whole).fetchone()[0]

    def test_its_lines_are_those_of_make(self):
        nocase = "text COLLATE NOCASE"
        for kinds in (None, (nocase, nocase, "integer", "numeric", "real", "text", "integer", "text", "real", "integer", "integer")):
            with self.subTest(kinds):
                lines, left_out, not_whole = self.lines(kinds)
                self.assertEqual(list(csv.reader(io.StringIO(lines.decode(), newline=""))), list(csv.reader(io.StringIO(self.due.decode(), newline=""))))
                self.assertEqual(self.check(lines), self.check(self.due))
                self.assertEqual(self.check(lines)[0], 0)
                self.assertEqual(not_whole, 0)

    def test_what_it_would_take_for_0_is_counted(self):
        self.file.write_text(self.file.read_text() + "Nord,a,30,70.5,1.99,1979-12-31,0,x,many,5,5\nNord,a,30,70.5,1.99,1979-12-31,0,x,0.125,5,5\n")
        self.assertEqual(self.lines()[2], 2)


class Queries(LinesTest):
    KINDS = ("dept=text", "age=number", "pay=sum", "best=max")
    TEXT = "dept,age,pay,best\nQA,30,1,2\n"

    def sql(self, dialect, *words):
        return self.prepare("sql", self.choices, dialect, *words)

    def test_each_dialect_says_what_its_traps_ask_for(self):
        self.chosen_for(self.TEXT, *self.KINDS)
        for dialect, due in (
            ("postgresql", ('sum(CAST("pay" AS numeric))', 'trim(CAST("dept" AS text)) COLLATE "C"', "\\copy (SELECT", "ENCODING 'UTF8'")),
            ("duckdb", ('sum(CAST(CAST("pay" AS varchar) AS decimal(38,12)))', 'trim(CAST("dept" AS varchar))', "COPY (SELECT")),
            ("sqlite", ('sum(CAST(round(CAST("pay" AS numeric)) AS integer))', 'trim(CAST("dept" AS text)) COLLATE BINARY', ".once table.csv", "GLOB '*[^0-9.+-]*'")),
            ("spark", ("sum(CAST(`pay` AS decimal(38,12)))", "trim(CAST(`dept` AS string))", "INSERT OVERWRITE DIRECTORY", "CAST(`pay` AS decimal(38,12)) IS NULL")),
        ):
            with self.subTest(dialect):
                status, said = self.sql(dialect)
                self.assertEqual(status, 0, said)
                for words in due + ("AS left_out FROM people", "AS not_whole FROM people", "count(*) AS", "GROUP BY", "ORDER BY"):
                    self.assertIn(words, said)

    def test_quotes_in_titles_and_values_stay_within_theirs(self):
        self.chosen_for('"de""p`t",pay\n"O\'Neil\\",5\n', "pay=sum", "others=text", "de_p_t.join=O'Neil\\ as it's")
        self.assertIn("""trim(CAST("de""p`t" AS text)) COLLATE "C" IN ('O''Neil\\') THEN 'it''s'""", self.sql("postgresql")[1])
        self.assertIn("trim(CAST(`de\"p``t` AS string)) IN ('O\\'Neil\\\\') THEN 'it\\'s'", self.sql("spark")[1])

    def test_a_table_of_a_schema_is_named(self):
        self.chosen_for(self.TEXT, *self.KINDS)
        self.assertIn("FROM office.staff_2026", self.sql("duckdb", "table=office.staff_2026")[1])

    def test_what_isnt_a_query_is_refused(self):
        self.chosen_for(self.TEXT, *self.KINDS)
        for words, due in ((("oracle",), "'oracle' isn't one of postgresql, duckdb, sqlite, spark"), (("sqlite", "table=a b"), "'a b' isn't the name of a table"),
                           (("sqlite", "table=a; DROP TABLE a"), "isn't the name of a table")):
            with self.subTest(words):
                status, said = self.sql(*words)
                self.assertEqual(status, 1)
                self.assertIn(due, said)
        self.assertEqual(self.sql("sqlite", "other=a")[0], 2)
        self.choose("count=none")
        self.assertIn("no column of counts is chosen", self.sql("sqlite")[1])
        self.choices.write_text(self.choices.read_text().replace('"is": "sum"', '"is": "?"'))
        self.assertIn("still to be chosen", self.sql("sqlite")[1])


if __name__ == "__main__":
    unittest.main()

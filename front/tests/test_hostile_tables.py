"""200 and more CSV files that nobody should have, each taken as far as it goes.

Each ends with a sentence or with a whole folder: no traceback, no file half written, no folder beside. Whether what was made is the table
of the file is what test_prepare and test_tables show. AUDITOR=.. /usr/bin/python3 -m unittest test_hostile_tables
"""

import csv
import json
import os
import random
import shutil
import unittest
from unittest import mock

from table_kit import TableTest

STAFF = "team,age,salary,bonus\n" + "".join(
    f"{('QA', 'DEV', 'Bob´s', 'Ops, North')[n % 4]!r},{20 + n % 40},{1000 + n * n % 977},{n % 7}\n" for n in range(60)
).replace("'", '"')


def named():
    """Files with one thing wrong or strange, by name."""
    yield from strange_bytes()
    yield from strange_quotes()
    yield from strange_headers()
    yield from strange_numbers()
    yield from strange_sizes()


def strange_bytes():
    good = STAFF.encode()
    yield "nothing", b""
    yield "a mark alone", b"\xef\xbb\xbf"
    yield "two marks", b"\xef\xbb\xbf\xef\xbb\xbf" + good
    yield "a byte 0", good[:50] + b"\0" + good[50:]
    yield "bytes 0 alone", b"\0" * 100
    yield "half a letter in UTF-8", good[:-1] + b"\xc3"
    yield "an overlong letter", good + b"\xc0\xaf,1,2,3\n"
    yield "a surrogate in UTF-8", good + b"\xed\xa0\x80,1,2,3\n"
    yield "UTF-16 of an odd length", STAFF.encode("utf-16") + b"a"
    yield "UTF-16 with half a pair", STAFF.encode("utf-16") + b"\x00\xd8\x00\xd8"
    yield "UTF-16 without a mark", STAFF.encode("utf-16-le")
    yield "UTF-32", STAFF.encode("utf-32")
    yield "a byte that Windows-1252 hasn't", good + b"\x81,1,2,3\n"
    yield "every byte", bytes(range(256))
    yield "every byte but 0", bytes(range(1, 256)) * 20
    yield "a program", b"\x7fELF\x02\x01\x01" + b"\0" * 9 + bytes(range(200))
    yield "a spreadsheet's own file", b"PK\x03\x04\x14\x00\x06\x00\x08\x00\x00\x00!\x00"
    yield "returns alone", good.replace(b"\n", b"\r")
    yield "mixed line ends", good.replace(b"\n", b"\r\n", 20).replace(b"\r\n", b"\r", 5)
    yield "other line ends", good.replace(b"\n", "\u2028".encode(), 5)
    yield "form feeds", good.replace(b"\n", b"\x0c\n")
    yield "colours of a terminal", good.replace(b"QA", b"\x1b[31mQA\x07")
    yield "letters from right to left", good.replace(b"QA", "\u202eAQ\u202c".encode())


def strange_quotes():
    yield "a quote alone", b'"'
    yield "quotes alone", b'"' * 1001
    yield "quotes and commas", b'",' * 1001
    yield "an open quote in the header", b'"a,b\n1,2\n3,4\n'
    yield "an open quote in the last row", STAFF.encode() + b'"x,1,2,3\n'
    yield "a quote in a number", STAFF.replace("1000", '1"000').encode()
    yield "text after a quote", STAFF.encode() + b'"x"y,1,2,3\n'
    yield "single quotes", STAFF.replace('"', "'").encode()
    yield "quotes of a word processor", STAFF.replace('"', "”").encode()
    yield "a quote escaped by a stroke", STAFF.encode() + b'"a\\"b",1,2,3\n'
    yield "a line end in a quoted title", b'"a\nb",c\n1,2\n3,4\n'
    yield "blanks before quotes", b'a, "b"\nx, "1"\ny, "2"\n'


def strange_headers():
    body = "1,2,3\n4,5,6\n7,8,1\n"
    for name, header in (
        ("two titles alike", "a,a,b"),
        ("two titles alike after renaming", "a.b,a b,a_b"),
        ("no titles", ",,"),
        ("keywords", "and,or,not"),
        ("numbers", "1,2,3"),
        ("a long title", "x" * 100000 + ",b,c"),
        ("long titles alike", ",".join("x" * 40 + str(k) for k in range(3))),
        ("signs", "!,?,%"),
        ("Greek", "α,β,γ"),
        ("combining signs", "a" + "\u0301" * 5000 + ",b,c"),
        ("formulas", "=1+1,@sum,+x"),
        ("quotes", '"""","""a""",b'),
        ("the names that are added", "wave,age_known,age"),
        ("a title with a line end", '"a\r\n",b,c'),
        ("titles too few", "a,b"),
        ("titles too many", "a,b,c,d"),
        ("a title too many by two", "a,b,c,d,e"),
        ("one title", "a"),
    ):
        yield f"header: {name}", (header + "\n" + body).encode()
    yield "a header alone", b"a,b,c\n"
    yield "a header twice", ("a,b,c\na,b,c\n" + body).encode()
    yield "lines of separators", b",,,\n,,,\n,,,\n"
    yield "blank lines alone", b"\n\n\n\n"
    yield "sep and nothing", b"sep=;\n"
    yield "sep of another mark", b"sep=;\na,b\n1,2\n3,4\n"
    yield "sep twice", b"sep=,\nsep=,\na,b\n1,2\n"


NUMBERS = [
    ("400 digits", ["9" * 400]),
    ("5,000 digits", ["1" * 5000]),
    ("400 decimals", ["0." + "1" * 400]),
    ("a large power", ["1e999"]),
    ("a small power", ["1e-999"]),
    ("a power too long", ["1e9999"]),
    ("no power", ["1e"]),
    ("minus 0", ["-0"]),
    ("signs alone", ["+", "-"]),
    ("two signs", ["--1"]),
    ("infinity", ["inf", "-Infinity"]),
    ("not a number", ["nan", "NaN"]),
    ("hexadecimal", ["0x1F"]),
    ("strokes in it", ["1_000"]),
    ("Arabic digits", ["٣", "٤"]),
    ("wide digits", ["１２"]),
    ("raised digits", ["²"]),
    ("a fraction", ["1/2"]),
    ("points alone", [".", ".."]),
    ("two points", ["1.2.3"]),
    ("groups that aren't", ["1,2345,6"]),
    ("a blank within", ["1 0"]),
    ("thousands and points mixed", ["1,000.5", "1.000,5"]),
    ("two currencies", ["$5", "€5"]),
    ("a unit on both sides", ["$5%"]),
    ("truth", ["TRUE", "FALSE"]),
    ("a time", ["12:30"]),
    ("no such day", ["2024-02-31"]),
    ("the year 0", ["0000-01-01"]),
    ("the year 9999", ["9999-12-31"]),
    ("a month 13", ["2024-13-01"]),
    ("dates in two orders", ["31.01.2024", "2024-01-31"]),
    ("a date with two digits", ["1/2/24"]),
    ("ten to the twelfth and one", ["1000000000001"]),
    ("blanks", ["  5  ", "\t6"]),
    ("a fixed blank", ["\u00a05\u00a0"]),
    ("zeros", ["000000000000000000007"]),
    ("a minus sign of print", ["\u22125"]),
]


def strange_numbers():
    for name, cells in NUMBERS:
        rows = [f"t{k};{cells[k % len(cells)] if k < 2 * len(cells) else k}" for k in range(9)]
        yield f"number: {name}", ("team;pay\n" + "\n".join(rows) + "\n").encode()
        yield f"number, every one: {name}", (
            "team;pay\n" + "\n".join(f"t{k};{cells[k % len(cells)]}" for k in range(4)) + "\n"
        ).encode()


def strange_sizes():
    yield "1,025 columns", (
        ",".join(f"c{k}" for k in range(1025)) + "\n" + ",".join(map(str, range(1025))) + "\n"
    ).encode()
    yield "40 columns", (",".join(f"c{k}" for k in range(40)) + "\n" + ",".join(map(str, range(40))) + "\n").encode()
    yield "a quoted cell of a million line ends", b'a,b\n"' + b"\n" * 10**6 + b'",1\ny,2\n'
    yield "a number of two million digits", b"a;b\nx;" + b"1" * 2_000_000 + b"\ny;2\n"
    yield "8,000 rows", b"a,b\n" + b"".join(b"%d,%d\n" % (k % 50, k) for k in range(8000))
    yield "8,000 parts", b"a,b\n" + b"".join(b"x%d,%d\n" % (k, k * k % 1009) for k in range(8000))
    yield "100,000 blank lines", b"a,b\n" + b"\n" * 100000 + b"1,2\n3,5\n"
    yield "one row", b"a,b\nx,1\n"
    yield "rows ever longer", b"\n".join(b"," * k for k in range(1, 400))


def spoilt(number):
    """The table of the staff with one to four changes at random: bytes put in, taken out or doubled, marks changed."""
    draw = random.Random(number)
    data = bytearray(STAFF.encode(draw.choice(["utf-8", "utf-8-sig", "utf-16", "cp1252"])))
    for _ in range(draw.randint(1, 4)):
        place = draw.randrange(len(data))
        kind = draw.randrange(5)
        if kind == 0:
            data[place:place] = draw.choice(
                [b'"', b",", b";", b"\n", b"\r", b"\t", b"\0", b"\xff", b"'", b"9" * 13, b"NA", b",,", b'""']
            )
        elif kind == 1:
            del data[place : place + draw.randint(1, 30)]
        elif kind == 2:
            data[place:place] = data[place : place + draw.randint(1, 300)]
        elif kind == 3:
            old, new = draw.sample([b",", b";", b"\n", b'"', b"\t"], 2)
            data = bytearray(bytes(data).replace(old, new, draw.choice([1, 5, -1])))
        else:
            data[place] = draw.randrange(256)
    return bytes(data)


STRANGE = [
    None,
    "?",
    "",
    "x" * 300,
    "none",
    [],
    {},
    0,
    -1,
    13,
    10**30,
    True,
    1.5,
    "\ud800",
    "a\0",
    [[]],
    [{}],
    ["team"],
    [1],
]
STRANGE += [
    {"a": 1},
    [{"column": [], "where": "x"}],
    [{"column": "salary", "where": 5}],
    [{"column": "salary", "where": ""}],
]
STRANGE += ["hex", "idna", "1,234", "mark"]


def changed_choices(good):
    """Choices with a strange value in the place of each of theirs, and of each of the third column's."""
    first, second, third, *others = good["columns"]
    for value in STRANGE:
        yield from ({**good, key: value} for key in good)
        yield from ({**good, "columns": [first, second, {**third, key: value}, *others]} for key in third)


class Hostile(TableTest):
    def take(self, data):
        """Looks at the file, chooses what can be chosen, and makes the table; how far it came. Nothing else may be left."""
        for path in (self.choices, self.file):
            path.unlink(missing_ok=True)
        status, said = self.look(data)
        if status:
            self.need_sentence(said, ["t.csv"])
            return "looked at"
        self.assertEqual(self.names(), ["t.choices.json", "t.csv"])
        status, said = self.choose("protect=none", "range=none", "missing=drop the row", *self.kinds())
        if status == 0:
            status, said = self.make()
        if status:
            self.need_sentence(said, ["t.choices.json", "t.csv"])
            return "chosen for"
        self.need_whole()
        return "made"

    def kinds(self):
        """A public text, a secret number, and the others left out, by what was seen of each."""
        columns = [column for column in self.chosen()["columns"] if column["is"] == "?"]
        secret = next((column for column in columns if "numbers" in column["seen"]), None)
        words = [
            f"{column['name']}={'sum' if column is secret else 'text' if place < 4 else 'leave out'}"
            for place, column in enumerate(columns)
        ]
        if secret and secret["written as"] == "?":
            words += [f"{secret['name']}.written as=1,234", f"{secret['name']}.decimals=0"]
        return words

    def need_sentence(self, said, names):
        """The last words are a sentence of a length that can be read, and the folder has these names alone."""
        self.assertRegex(said, "(?m)^prepare: [^\n]{5,}")
        self.assertNotIn("Traceback", said)
        self.assertLess(len(said[said.index("prepare: ") :]), 6000)
        self.assertEqual(self.names(), names)

    def need_whole(self):
        """A folder has every file, with the schema's columns and as many rows in public as in all."""
        schema = json.loads((self.out / "schema.json").read_text())["columns"]
        table, public = self.table(), self.table("public")
        self.assertEqual(table[0], [column["name"] for column in schema])
        self.assertEqual(public[0], [column["name"] for column in schema if column["is"] in ("text", "number", "count")])
        self.assertEqual(len(table), len(public))
        self.assertTrue(2 <= len(table) <= 4097)
        self.assertEqual(sorted(path.name for path in self.folder.iterdir()), ["out", "t.choices.json", "t.csv"])
        for path in [
            *(self.out / "public").iterdir(),
            self.out / "public",
            self.out / "schema.json",
            self.out / "table.csv",
            self.out,
        ]:
            path.rmdir() if path.is_dir() else path.unlink()

    def test_strange_files_end_with_a_sentence_or_a_whole_folder(self):
        ends = {}
        for name, data in named():
            with self.subTest(name):
                ends[name] = self.take(data)
        self.assertGreaterEqual(len(ends), 120)
        self.assertEqual({end for end in ends.values()}, {"looked at", "chosen for", "made"})

    def test_spoilt_files_end_with_a_sentence_or_a_whole_folder(self):
        for number in range(120):
            with self.subTest(number):
                self.take(spoilt(number))

    def test_no_choice_breaks_it(self):
        self.look(STAFF)
        self.choose("protect=none", "range=none", "team=text", "age=number", "salary=sum", "bonus=max")
        with mock.patch.dict(os.environ, {"AUDITOR": ""}):
            for choices in changed_choices(self.chosen()):
                self.choices.write_text(json.dumps(choices))
                with self.subTest(str(choices)[-300:]):
                    self.need_end(choices["split by"], *self.make())

    def need_end(self, by, status, said):
        """A sentence, or a whole folder, or one for each part if the table is split."""
        if status:
            self.need_sentence(said, ["t.choices.json", "t.csv"])
        elif by:
            self.assertTrue(all((part / "public/notes.json").is_file() for part in self.out.iterdir()))
            shutil.rmtree(self.out)
        else:
            self.need_whole()

    def test_what_each_of_the_worst_is_told(self):
        for name, data, words in (
            (
                "a million columns",
                b"a," * 10**6 + b"b\n" + b"1," * 10**6 + b"2\n",
                "the header has 1,000,001 cells, and 2 to 1,024 are read",
            ),
            ("a cell of 20 MB", b"a,b\n" + b"x" * 20_000_000 + b",1\ny,2\n", "and at most 16,777,216 are read"),
            (
                "a number of 400 digits",
                b"a;b\nx;" + b"9" * 400 + b"\ny;2\nz;5\n",
                "(400 characters) is beyond 1,000,000,000,000",
            ),
            ("an open quote", b'a,b\n1,2\n3,"4\n5,6\n', "row 3: a quote is opened and never closed"),
            ("a byte 0", b"a,b\n1,2\n3,\0\n", "line 3 has a byte 0"),
            ("a title of 20 MB", b"a" * 20_000_000 + b",b\n1,2\n3,4\n", "a title has 20,000,000 characters"),
            (
                "a wrong byte",
                "wörter,zahl\nä,1\nö,2\n".encode() + b"\xff,3\n",
                "byte 23 of the file (ff, hexadecimal) isn't UTF-8, though most letters",
            ),
            ("more than is read", b"a,b\n" + b"1,2\n" * (17 * 2**20), "more than 67,108,864 bytes"),
        ):
            with self.subTest(name):
                for path in (self.choices, self.file):
                    path.unlink(missing_ok=True)
                status, said = self.look(data)
                if status == 0:
                    self.choose("protect=none", "range=none", *self.kinds())
                    status, said = self.make()
                self.assertEqual(status, 1)
                self.assertIn(words, said)

    def test_titles_alike_after_renaming_are_told_apart(self):
        self.look("a.b,a b,pay\nx,y,1\nz,u,5\n")
        said = (
            self.prepare("choose", self.choices, "a_b=text", "a_b_2=text", "pay=sum", "protect=none", "range=none")[1]
            + self.make()[1]
        )
        self.assertIn("'a b': public text, named a_b_2", said)
        with open(self.out / "table.csv", newline="") as file:
            self.assertEqual(next(csv.reader(file)), ["a_b", "a_b_2", "pay"])


if __name__ == "__main__":
    unittest.main()

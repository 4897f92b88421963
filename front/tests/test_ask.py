"""What ask.py asks and says, over the program in a folder and over a front door that answers from a list.

AUDITOR=.. /usr/bin/python3 -m unittest test_ask
"""

import fractions
import http.server
import io
import json
import os
import random
import subprocess
import threading
import unittest
from unittest import mock

from table_kit import AUDITOR, TableTest, needs_program, said_by

import ask
from asking.hints import hint, marked, mended
from asking.places import place
from asking.questions import Question, Unclear, parse
from asking.words import condition_words, number_words

KINDS = {"team": "text", "age": "number", "weight_x10": "number", "salary": "sum", "bonus": "max"}
STAFF = (
    'team,age,weight,salary,bonus\n"Support, Leeds",30,70.5,480.50,3\n"Support, Leeds",41,80.5,515.00,6\n"Tea ""&""'
    " cake\",35,61,390.00,2\nAnn's,52,55,640.00,9\nAnn's,35,90.5,570.25,4\nDesign,44,77.5,610.00,8\n"
)

# What was typed, the byte at which it goes wrong, a part of the sentence, and what it says to write instead, if anything.
WRONG = [
    ("age == 41", 5, "= is written in place of ==", "age = 41"),
    ("age = 41 AND team = 'QA'", 9, "and is written in small letters", "age = 41 and team = 'QA'"),
    ("age = 41 or NOT age = 3", 12, "not is written in small letters", "age = 41 or not age = 3"),
    ("age IN (1, 2)", 4, "in is written in small letters", "age in (1, 2)"),
    ("age = 41 && age = 3", 9, "and is written in place of &&", "age = 41 and age = 3"),
    ("age = 41||age = 3", 8, "or is written in place of ||", "age = 41 or age = 3"),
    ("age <> 41", 5, "!= is written in place of <>", "age != 41"),
    ("team <> 'QA'", 5, "!= is written in place of <>", "team != 'QA'"),
    ("age => 41", 5, ">= is written in place of =>", "age >= 41"),
    ("!(age = 41)", 0, "not is written in place of !", "not (age = 41)"),
    ('team = "QA"', 7, "single quotes", "team = 'QA'"),
    ('team = "Ann\'s"', 7, "single quotes", "team = 'Ann''s'"),
    ("team = ‘QA’", 7, "single quotes", "team = 'QA'"),
    ("age between 30 and 40", 4, "write age >= 30 and age <= 40", "age >= 30 and age <= 40"),
    ('age == 1 && team == "Q"', 5, "= is written in place of ==", "age = 1 and team = 'Q'"),
    ("team not in ('QA')", 5, "not stands before what it denies", "not team in ('QA')"),
    ("salary > 500", 0, "salary is secret, and a condition is over public columns alone: team, age, weight_x10", None),
    ("age > 3 and bonus = 9", 12, "bonus is secret", None),
    ("team = QA", 7, "stands in single quotes: 'QA'", None),
    ("team = 'Ann's'", 12, "a ' within a text is written twice", None),
    ("team = 'QA", 7, "the text isn't closed", None),
    ("team < 'QA'", 5, "texts, which have no order", None),
    ("team = 3", 7, "a column of texts: write '3'", None),
    ("age >= '41'", 7, "its number is written without quotes", None),
    ("age >= forty", 7, "age is compared with a whole number", None),
    ("weight_x10 > 70.5", 15, "write 705", None),
    ("age > 70.5", 8, "a number in a condition is whole", None),
    ("age > 1,000", 7, "without marks between thousands: 1000", None),
    ("age > 1000000000001", 6, "too large", None),
    ("30 <= age", 0, "begins with the column", None),
    ("age 41", 4, "a comparison is missing", None),
    ("agee > 3", 0, "did you mean age?", None),
    ("team like 'Q%'", 5, "like isn't known", None),
    ("age + 1 > 3", 4, "doesn't reckon", None),
    ("age > 3;", 7, "without a semicolon", None),
    ("age >", 5, "ends too early", None),
    ("", 0, "all means every row", None),
]


class Lines(unittest.TestCase):
    def test_lines_become_questions(self):
        for text, due in (
            ("count", Question("count")),
            ("sum salary where age >= 41", Question("sum", "salary", "age >= 41")),
            ("avg salary", Question("avg", "salary")),
            ("average salary WHERE age = 3", Question("avg", "salary", "age = 3")),
            ("max bonus where team = ' where '", Question("max", "bonus", "team = ' where '")),
            ("totals salary by team", Question("sum", "salary", by=("team",))),
            ("avg salary by team where age > 3", Question("avg", "salary", "age > 3", ("team",))),
            ("count by age", Question("count", by=("age",))),
            ("totals salary by team, age", Question("sum", "salary", by=("team", "age"))),
            ("csv avg salary by age ,team", Question("avg", "salary", by=("age", "team"), csv=True)),
            ("near sum salary where age = 3", Question("sum", "salary", "age = 3", near=True)),
            ("would sum salary where age = 3", Question("sum", "salary", "age = 3", would=True)),
            ("why max bonus where age = 3", Question("max", "bonus", "age = 3", why=True)),
            ("avg salary by team and age where age = 3", Question("avg", "salary", "age = 3", by=("team", "age"))),
        ):
            with self.subTest(text):
                self.assertEqual(parse(text, KINDS), due)

    def test_lines_that_are_no_question_get_a_sentence(self):
        for text, words in (
            ("median salary", "median can't be asked"),
            ("summ salary", "did you mean sum?"),
            ("sum", "write it as: sum COLUMN"),
            ("count salary", "a count has no column"),
            ("sum salry", "did you mean salary?"),
            ("sum age", "age is public"),
            ("sum bonus", "bonus is kept for max"),
            ("max salary", "kept for sum and avg"),
            ("totals salary", "totals COLUMN by COLUMN"),
            ("why totals salary by team", "why is asked of one question"),
            ("near totals salary by team", "near is asked of one question"),
            ("csv sum salary", "csv is of groups"),
            ("totals salary by team, tem", "did you mean team?"),
            ("totals salary by team, age, team", "by takes one column, or two for a table"),
            ("avg salary by team and age and team", "by takes one column, or two for a table"),
            ("avg by team", "avg COLUMN where CONDITION, or by COLUMN, or by COLUMN, COLUMN"),
            ("totals salary by bonus", "bonus is secret"),
            ("sum salary by tem", "did you mean team?"),
            ("", "'' isn't something"),
        ):
            with self.subTest(text), self.assertRaises(Unclear) as found:
                parse(text, KINDS)
            self.assertIn(words, str(found.exception))

    def test_a_question_is_asked_over_one_value(self):
        self.assertEqual(
            Question("sum", "salary", by=("team",)).over("team = 'Ann''s'").line(),
            {"ask": "sum", "column": "salary", "where": "team = 'Ann''s'"},
        )
        self.assertEqual(
            Question("count", where="a or b", by=("age",)).over("age = -3").line(),
            {"ask": "count", "where": "(a or b) and age = -3"},
        )


class Words(unittest.TestCase):
    def test_every_wrong_condition_gets_its_sentence(self):
        for condition, at, words, better in WRONG:
            with self.subTest(condition):
                self.assertIn(words, hint(condition, at, KINDS, {"weight_x10": 1}))
                self.assertEqual(mended(condition), better or condition)

    def test_what_stands_in_quotes_isnt_mended(self):
        for condition in (
            "team = 'a == b && \"c\" AND d'",
            "team = 'it''s <> x' and age != 3",
            "not (age >= -3) or all",
        ):
            self.assertEqual(mended(condition), condition)

    def test_no_condition_breaks_what_is_said_of_it(self):
        draw = random.Random(5)
        pieces = (
            "team age w_x10 salary = == <> < ! != ' '' \" and AND or not in ( ) , 12 1.5 - between is like é 東 ; 'x' &&"
            " | “ >= => \0 \u202e _ %".split(" ")
        )
        for _ in range(3000):
            condition = "".join(draw.choice(pieces) + draw.choice(["", " ", "\n"]) for _ in range(draw.randrange(9)))
            at = draw.randrange(len(condition.encode()) + 1)
            lines = condition_words(condition, at, KINDS, {"weight_x10": {"decimals": 1}}).split("\n")
            self.assertEqual(lines[1].strip(), "^")
            self.assertRegex(lines[2], r"^refused: .*[.?]$")

    def test_the_mark_stands_under_the_byte(self):
        for condition, at, before in (
            ("age == 4", 5, 5),
            ("tëam == 4", 7, 6),
            ("team = '東京' == 4", 17, 15),
            ("a\n== 4", 3, 3),
        ):
            line, mark = marked(condition, at, "").split("\n")
            self.assertEqual((mark, len(line)), (" " * before + "^", len(condition)))

    def test_decimals_and_units_are_set_back(self):
        for number, note, due in (
            (48050, {"decimals": 2, "unit": "EUR"}, "480.50 EUR"),
            (-5, {"decimals": 1}, "-0.5"),
            (0, {"decimals": 2}, "0.00"),
            (7, {}, "7"),
            (fractions.Fraction(7, 2), {}, "3.5"),
            (fractions.Fraction(1, 3), {}, "0.333333 (exactly 1/3)"),
            (fractions.Fraction(200, 3), {"decimals": 2}, "0.66666667 (exactly 2/3)"),
            (fractions.Fraction(-1, 3), {"decimals": 1}, "-0.0333333 (exactly -1/30)"),
        ):
            with self.subTest(due):
                self.assertEqual(number_words(number, note), due)


class OverAFolder(TableTest):
    def setUp(self):
        super().setUp()
        self.made(STAFF, "team=text", "age=number", "weight=number", "salary=sum", "bonus=max")

    def ask(self, *questions):
        return said_by(ask.main, [self.out, *questions])

    def journal(self):
        subprocess.run([AUDITOR, "init"], cwd=self.out, check=True)

    @needs_program
    def test_answers_have_their_decimals(self):
        self.journal()
        status, said = self.ask(
            "count where age >= 41", "sum salary where age >= 41", "avg salary where age >= 41", "max bonus"
        )
        self.assertEqual((status, said.splitlines()), (0, ["3", "1765.00", "588.33333333 (exactly 1765/3)", "9"]))

    @needs_program
    def test_a_denial_is_said_in_words(self):
        self.journal()
        status, said = self.ask("sum salary where age >= 41", "sum salary where age >= 41 and not team = 'Design'")
        self.assertEqual(status, 1)
        self.assertIn(
            (
                "1765.00\nnot answered: Some answer to this question, together with what was answered before, could"
                " give a person's value or a protected total away"
            ),
            said,
        )
        self.assertTrue(said.endswith(" To see why, ask: why sum salary where age >= 41 and not team = 'Design'\n"), said)

    @needs_program
    def test_why_of_what_would_be_refused_is_the_sentence_that_asking_gives(self):
        self.journal()
        asked = ("sum salary where team = 'Nowhere'", "sum salary where age == 3")
        _, due = self.ask(*asked)
        self.assertIn("refused: No row satisfies the condition.", due)
        self.assertEqual(self.ask(*("why " + line for line in asked)), (0, due))

    @needs_program
    def test_what_a_denial_means_is_said_once_below_all_groups(self):
        self.journal()
        status, said = self.ask("totals salary by age")
        lines = said.splitlines()
        self.assertEqual((status, lines[:5]), (1, ["30: not answered", "35: 960.25", *(f"{age}: not answered" for age in (41, 44, 52))]))
        self.assertRegex(lines[5], "^not answered: Some answer .* To see why, ask: why sum salary where age = 30$")
        self.assertEqual(len(lines), 6)

    @needs_program
    def test_why_is_said_between_two_questions(self):
        self.journal()
        all_three, two = "sum salary where age >= 41", "sum salary where age >= 41 and not team = 'Design'"
        status, said = self.ask("why " + two, all_three, "why " + two, "why max bonus where age = 44", "why count", two)
        lines = said.splitlines()
        self.assertEqual(lines[:6], [
            "It would be answered now. If it was denied before, what was answered since makes it safe: ask it again.", '  {"verdict":"released"}', "1765.00",
            "the number of row 2 is record 0, less the answer asked for", '  {"verdict":"unsafe","row":2,"times":1,"by":[[0,1]],"asked":-1}',
            "were the answer 0, row 2 would be the only one that can have it"])
        self.assertEqual((status, lines[7], lines[9][:12]), (1, "It would be answered: counts always are.", "not answered"))

    @needs_program
    def test_totals_are_a_line_for_each_value(self):
        self.journal()
        status, said = self.ask("totals salary by team where age > 30 or team = 'Support, Leeds'", "count by age")
        lines = said.splitlines()
        self.assertEqual(lines[0], "Ann's: 1210.25")
        self.assertIn("Support, Leeds: 995.50", lines)
        self.assertIn("Design: not answered", lines)
        self.assertIn('Tea "&" cake: not answered', lines)
        self.assertEqual(lines[-5:], ["30: 1", "35: 2", "41: 1", "44: 1", "52: 1"])
        self.assertEqual(status, 1)

    @needs_program
    def test_a_table_by_two_columns_is_drawn_and_is_csv(self):
        """Five people, of whom two have one age: each cell is over one person."""
        self.journal()
        where = "where team in ('Design', 'Support, Leeds') or age = 35"
        status, said = self.ask(f"totals salary by team, age {where}", f"csv totals salary by age, team {where}",
                                "would totals salary by team, age", "csv count by team")
        lines = said.splitlines()
        self.assertEqual(lines[0].split(), ["team", "/", "age", "30", "35", "41", "44", "all"])
        self.assertEqual(lines[1].split()[:2], ["Ann's", "////"])
        self.assertEqual([line.split()[0] for line in lines[1:6]], ["Ann's", "Design", "Support,", "Tea", "all"])
        self.assertTrue(lines[6].startswith("////: not answered: Some answer"))
        self.assertIn("age,team,rows,sum,not answered", lines)
        place = lines.index("age,team,rows,sum,not answered")
        self.assertRegex(lines[place + 1], r"^,,5,\d+\.\d\d,$")
        self.assertIn('30,"Support, Leeds",1,,unsafe', lines)
        self.assertEqual(lines[-5:], ["team,rows,count,not answered", "Ann's,2,2,", "Design,1,1,", '"Support, Leeds",2,2,', '"Tea ""&"" cake",1,1,'])
        self.assertEqual(status, 1)

    @needs_program
    def test_what_is_near_is_said_over_a_folder(self):
        self.journal()
        status, said = self.ask("sum salary where age >= 35", "near sum salary where age >= 41", "near sum salary where age = 30", "near sum salary",
                                "near sum salary where age == 3", "near count", "avg salary where age in (30, 41)")
        lines = said.splitlines()
        self.assertEqual(lines[1:6], ["It would be answered now.", "age in (30, 41): 2 rows, 1 more", "No question near this one would be answered now.",
                                      "It would be refused.", "It would be answered: counts always are."])
        self.assertEqual((status, len(lines)), (0, 7))

    @needs_program
    def test_a_value_that_no_row_has_left_has_no_line(self):
        self.journal()
        status, said = self.ask("max bonus by team where age >= 44 or team = 'Support, Leeds'")
        self.assertEqual([line.split(": ")[0] for line in said.splitlines()], ["Ann's", "Design", "Support, Leeds", "not answered"])

    @needs_program
    def test_the_program_stops_where_the_table_of_wrong_conditions_says(self):
        self.journal()
        for condition, at, words, better in WRONG:
            with self.subTest(condition):
                status, said = self.ask(f"count where {condition}")
                lines = said.splitlines()
                self.assertEqual((status, lines[1]), (1, "  " + " " * len(condition.encode()[:at].decode()) + "^"))
                self.assertIn(words, lines[2])
                self.assertEqual(lines[3:], [f"Write: {better}"] if better else [])
                if better:
                    self.assertEqual(self.ask(f"count where {better}")[0], 0)

    @needs_program
    def test_a_wrong_condition_in_groups_is_marked_as_it_was_typed(self):
        self.journal()
        status, said = self.ask("totals salary by team where age == 3")
        self.assertEqual((status, said.splitlines()[:2]), (1, ["  age == 3", "       ^"]))

    @needs_program
    def test_lines_are_read_to_the_end(self):
        self.journal()
        with mock.patch("sys.stdin", io.StringIO("count\n\ncolumns\nhelp\nsum salary\n")):
            status, said = self.ask()
        self.assertEqual((status, said.splitlines()[0], said.splitlines()[-1]), (0, "6", "3205.75"))
        self.assertIn("weight_x10                       public number, called 'weight', in steps of 0.1", said)
        self.assertIn("totals salary by team", said)

    @needs_program
    def test_without_a_journal_it_says_what_to_do(self):
        status, said = self.ask("count")
        self.assertEqual(status, 1)
        self.assertIn(
            "auditor: no journal (there is no journal: run auditor init in the folder, once for the table)", said
        )

    @needs_program
    def test_a_journal_in_use_is_said(self):
        self.journal()
        with subprocess.Popen([AUDITOR, "serve"], cwd=self.out, stdin=subprocess.PIPE, stdout=subprocess.PIPE) as held:
            held.stdin.write(b'{"ask":"count","where":"all"}\n')
            held.stdin.flush()
            held.stdout.readline()
            self.assertIn("another run has the journal open", self.ask("count")[1])
            held.stdin.close()

    def test_places_that_arent_one_get_a_sentence(self):
        for words, due in (
            ([self.folder / "nothing"], "there is no folder"),
            ([self.folder], "has no schema.json"),
            ([], "ask.py FOLDER"),
            (["--what"], "ask.py FOLDER"),
        ):
            with mock.patch.dict(os.environ, {"AUDITOR": "/bin/true"}):
                status, said = said_by(ask.main, words)
            self.assertIn(due, said)
            self.assertNotEqual(status, 0)

    def test_help_is_there_without_a_place(self):
        status, said = said_by(ask.main, ["--help"])
        self.assertEqual(status, 0)
        self.assertIn("ask.py FOLDER", said)

    def test_without_the_program_it_says_so(self):
        with mock.patch.dict(os.environ, {"AUDITOR": "/nowhere/auditor"}):
            self.assertIn("there is no auditor", self.ask("count")[1])

    def test_a_program_that_says_nothing_is_said(self):
        with mock.patch.dict(os.environ, {"AUDITOR": "/bin/true"}):
            self.assertIn("it ended with status 0", self.ask("count")[1])


    def test_each_end_of_the_program_is_said_with_what_to_do(self):
        program = self.folder / "auditor"
        for code, complaint, words in (
            (7, "no journal", "auditor: no journal (there is no journal: run auditor init"),
            (12, "record 1 should not have been released", "before schema.json protected a total"),
            (16, "schema: group 0 is bad", "auditor: schema: group 0 is bad (in schema.json, under protect, counted from 0"),
            (99, "", "auditor: it ended with status 99\n"),
        ):
            program.write_text(f"#!/bin/sh\necho '{complaint}' >&2\nexit {code}\n")
            program.chmod(0o755)
            with self.subTest(code), mock.patch.dict(os.environ, {"AUDITOR": str(program)}):
                status, said = self.ask("count")
                self.assertEqual(status, 1)
                self.assertIn(words, said)

    def test_groups_and_columns_are_of_the_rows_that_questions_are_over(self):
        schema = {"columns": [{"name": "team", "is": "text"}, {"name": "current", "is": "number"}, {"name": "pay", "is": "sum"}]}
        for only, due in ((None, 3), ("current = 1", 2), ("current", 3)):
            (self.folder / "schema.json").write_text(json.dumps(schema if only is None else {**schema, "only": only}))
            (self.folder / "table.csv").write_text("team,current,pay\nQA,1,5\nOPS,0,6\nDEV,1,7\n")
            there = place(str(self.folder), AUDITOR)
            self.assertEqual(len(there.rows()), due)
            status, said = said_by(ask.main, [self.folder, "columns"])
            self.assertEqual((status, f"  every question is over the rows where {only}\n" in said), (0, only is not None))


class ListedDoor(http.server.BaseHTTPRequestHandler):
    """A front door whose replies are a list; what was asked is kept."""

    files, replies, asked = {}, [], []

    def reply(self, status, body):
        data = body.encode()
        self.send_response(status)
        self.send_header("Content-Length", str(len(data)))
        self.end_headers()
        self.wfile.write(data)

    def do_GET(self):
        (
            self.reply(200, self.files[self.path])
            if self.path in self.files
            else self.reply(404, '{"error":"there is no such file"}')
        )

    def do_POST(self):
        body = self.rfile.read(int(self.headers["Content-Length"]))
        self.asked.append((self.path, self.headers["Content-Type"], json.loads(body)))
        self.reply(*self.replies.pop(0))

    def log_message(self, *words):
        """Says nothing."""


class OverADoor(unittest.TestCase):
    def setUp(self):
        ListedDoor.files = {
            "/t/schema.json": json.dumps({"columns": [{"name": name, "is": kind} for name, kind in KINDS.items()]}),
            "/t/notes.json": json.dumps({"columns": {"salary": {"title": "Lohn", "decimals": 2, "unit": "EUR"}}}),
            "/t/table.csv": "team,age,weight_x10\r\nQA,3,1\r\nOPS,4,2\r\nQA,5,3\r\n",
        }
        ListedDoor.replies, ListedDoor.asked = [], []
        self.server = http.server.ThreadingHTTPServer(("127.0.0.1", 0), ListedDoor)
        self.address = f"http://127.0.0.1:{self.server.server_address[1]}/t/"
        thread = threading.Thread(target=self.server.serve_forever, kwargs={"poll_interval": 0.02})
        thread.start()
        self.addCleanup(thread.join)
        self.addCleanup(self.server.server_close)
        self.addCleanup(self.server.shutdown)

    def ask(self, replies, *questions):
        self.enterContext(mock.patch("asking.doors.PATIENCE", 0))
        ListedDoor.replies[:] = [reply if isinstance(reply, tuple) else (200, reply) for reply in replies]
        return said_by(ask.main, [self.address, *questions])

    def test_an_answer_that_adds_nothing_new_is_said_beforehand(self):
        status, said = self.ask(['{"verdict":"released","new":false}', '{"verdict":"released"}'], "would sum salary", "would avg salary")
        self.assertEqual((status, said.splitlines()), (0, ["It would be answered now. It adds nothing new: the answer follows from earlier ones.",
                                                           "It would be answered now."]))

    def test_questions_and_verdicts_go_where_they_belong(self):
        status, said = self.ask(
            ['{"sum":150}', '{"num":1,"den":3}', '{"verdict":"unsafe"}'],
            "sum salary where age = 3",
            "avg salary",
            "would sum salary",
        )
        self.assertEqual(
            (status, said.splitlines()),
            (0, ["1.50 EUR", "0.00333333 EUR (exactly 1/300)", "It would not be answered."]),
        )
        kind = "application/json"
        self.assertEqual(
            ListedDoor.asked,
            [
                ("/t/ask", kind, {"ask": "sum", "column": "salary", "where": "age = 3"}),
                ("/t/ask", kind, {"ask": "avg", "column": "salary", "where": "all"}),
                ("/t/would", kind, {"ask": "sum", "column": "salary", "where": "all"}),
            ],
        )

    def test_why_is_asked_of_the_door(self):
        total = '{"verdict":"unsafe","group":1,"times":2,"by":[[3,-2]],"asked":1}'
        schema = json.loads(ListedDoor.files["/t/schema.json"])
        protect = [{"column": "salary", "where": where} for where in ("age > 3", "age > 99", "team = 'Q\u202eA'")]
        ListedDoor.files["/t/schema.json"] = json.dumps({**schema, "protect": protect})
        status, said = self.ask([total, '{"count":2}', '{"count":0}', '{"count":1}', '{"verdict":"unsafe","proof":"wide"}'],
                                "why sum salary where age = 3", "why avg salary")
        self.assertEqual((status, said.splitlines()[:2]), (0, [
            "2 times the protected total where team = 'Q\\u202eA' is the answer asked for, less 2 times record 3", "  " + total]))
        self.assertIn("would need larger numbers than are told", said)
        self.assertEqual([path for path, _, _ in ListedDoor.asked], ["/t/why", "/t/ask", "/t/ask", "/t/ask", "/t/why"])
        for wrong in ("{}", '{"verdict":"unsafe"}', '{"verdict":"unsafe","row":0,"times":1,"by":[3],"asked":1}'):
            self.assertIn("isn't a line of auditor explain", self.ask([wrong], "why sum salary")[1])

    def test_protected_totals_are_said_with_the_columns(self):
        schema = json.loads(ListedDoor.files["/t/schema.json"])
        for protect, due in (
            ([], []),
            (
                [{"column": "salary", "where": "team = 'Q\u202eA'"}],
                ["  protected, so never answered: the total of salary where team = 'Q\\u202eA'"],
            ),
        ):
            ListedDoor.files["/t/schema.json"] = json.dumps({**schema, "protect": protect})
            status, said = self.ask([], "columns")
            self.assertEqual((status, said.splitlines()[len(KINDS) :]), (0, due))
        ListedDoor.files["/t/schema.json"] = json.dumps({**schema, "protect": [{"column": "salary", "where": "team = 'QA' "}]})
        status, said = self.ask(['{"denied":"unsafe"}'] * 5, "totals salary by team", "avg salary where team = 'QA'", "sum salary where team != 'QA'")
        named = "not answered: This total is protected, so it is never answered."
        self.assertEqual((status, [line.endswith(named) for line in said.splitlines()]), (1, [False, True, False, True, False]))
        for protect in (1, [1], [{"column": "salary"}], None):
            ListedDoor.files["/t/schema.json"] = json.dumps({**schema, "protect": protect})
            self.assertIn('each entry of "protect" has the keys column and where', self.ask([], "columns")[1])

    def test_groups_are_those_of_the_public_table(self):
        status, said = self.ask(['{"denied":"wide"}', '{"sum":1}'], "totals salary by team")
        self.assertEqual((status, said.splitlines()[0]), (1, "OPS: 0.01 EUR"))
        self.assertIn("QA: not answered\nnot answered: To see whether an answer is safe", said)
        self.assertEqual([asked["where"] for _, _, asked in ListedDoor.asked], ["team = 'QA'", "team = 'OPS'"])

    def test_every_refusal_has_a_sentence(self):
        for why, words in (
            ("full", "history is full"),
            ("long", "longer than"),
            ("line", "isn't one that the program understands"),
            ("empty", "No row"),
        ):
            status, said = self.ask([json.dumps({"refused": why})], "sum salary")
            self.assertEqual(status, 1)
            self.assertIn(words, said)

    def test_the_doors_own_words_are_said(self):
        for reply, words in (
            ((503, '{"error":"too many wait"}'), "the front door says: too many wait"),
            ((500, "<html>"), "500"),
            ((200, "<html>"), "isn't a reply of auditor"),
        ):
            status, said = self.ask([reply], "sum salary")
            self.assertEqual(status, 1)
            self.assertIn(words, said)

    def test_what_isnt_a_reply_is_said(self):
        for reply in (
            "[]",
            "5",
            "null",
            '{"sum":"x"}',
            '{"sum":1.5}',
            '{"num":1,"den":0}',
            '{"refused":"where","at":"x"}',
            "{",
            "NaN",
            '{"sum":true}',
        ):
            with self.subTest(reply):
                status, said = self.ask([reply], "sum salary")
                self.assertEqual(status, 1)
                self.assertIn("what comes back isn't a reply of auditor", said)

    def test_a_door_without_notes_is_asked_all_the_same(self):
        del ListedDoor.files["/t/notes.json"]
        self.assertEqual(self.ask(['{"sum":150}'], "sum salary"), (0, "150\n"))

    def test_too_many_groups_arent_asked(self):
        ListedDoor.files["/t/table.csv"] = "team,age,weight_x10\n" + "".join(
            f"t{number},3,1\n" for number in range(101)
        )
        status, said = self.ask([], "totals salary by team")
        self.assertEqual((status, ListedDoor.asked), (1, []))
        self.assertIn("team has 101 values, and at most 100 questions are asked at once", said)

    def test_an_address_where_nothing_listens_is_said(self):
        status, said = said_by(ask.main, ["http://127.0.0.1:9", "count"])
        self.assertEqual(status, 1)
        self.assertIn("http://127.0.0.1:9 doesn't answer", said)


if __name__ == "__main__":
    unittest.main()

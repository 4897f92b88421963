"""The page over a door that says what it is told to say: rare replies, failing doors, several tables.

Start: /usr/bin/python3 -m unittest -v test_page_faults. It needs no program.
"""
import json
import threading
import unittest

from kit import PATIENCE
from scripted_door import ScriptedDoor
from test_page import PageCase

CONTROL, ENTER = "\ue009", "\ue007"      # keys, as the browser's driver has them
COLUMNS = [{"name": "constructor", "is": "text"}, {"name": "age", "is": "number"},
           {"name": "pay", "is": "sum"}, {"name": "best", "is": "max"}]
ROWS = "constructor,age\r\nA,30\r\n\r\n\"B, \"\"x\"\"\",40\r\nA, +50\r\n"
NOTES = {"title": 5, "columns": {"pay": {"decimals": 2, "unit": "EUR"}, "best": {"title": None, "decimals": "2", "unit": 7}}}


def files(base="", rows=ROWS, notes=None):
    return {base + "schema.json": json.dumps({"columns": COLUMNS}), base + "table.csv": rows,
            base + "notes.json": json.dumps(NOTES if notes is None else notes), base + "health": '{"state":"serving","records":2,"room":65534}'}


class OneTable(PageCase):
    """A door that counts `whole` rows of every condition, and says `reply` to all else."""

    whole = 3

    def open(self, reply, more=None):
        self.reply = reply
        self.door = ScriptedDoor({**files(), **(more or {})}, self.each)
        self.addCleanup(self.door.close)
        self.browser.open(self.door.url)

    def each(self, path, question):
        if question["ask"] == "count" and path.endswith("ask"):
            return 200, '{"count":0}' if question["where"] == "age > 99" else '{"count":%d}' % self.whole
        return self.reply(path, question) if callable(self.reply) else (200, self.reply)

    def say(self, reply, kind="sum"):
        """What the answer's box has for a reply."""
        self.reply = reply
        self.browser.run("document.querySelector(`#kinds input[value=${arguments[0]}]`).click()", kind)
        return self.browser.ask()


class Scripted(OneTable):
    """Seldom replies, and doors that fail."""

    def test_numbers_are_exact_to_the_last_digit(self):
        cases = [("sum", '{"sum":0}', "0.00 EUR"), ("sum", '{"sum":-5}', "-0.05 EUR"), ("sum", '{"sum":-123456}', "-1,234.56 EUR"),
                 ("sum", '{"sum":4096000000000000}', "40,960,000,000,000.00 EUR"), ("sum", '{"sum":-4095999999999999}', "-40,959,999,999,999.99 EUR"),
                 ("avg", '{"num":-7,"den":1}', "-0.07 EUR"), ("avg", '{"num":1,"den":2}', "0.005 EUR"),
                 ("avg", '{"num":-1,"den":3}', "≈ -0.0033 EUR"),
                 ("avg", '{"num":1234567,"den":8}', "≈ 1,543.2088 EUR"), ("avg", '{"num":1001,"den":4}', "2.5025 EUR"),
                 ("max", '{"max":1000000000000}', "1,000,000,000,000"), ("max", '{"max":-1}', "-1")]
        self.open("")
        for kind, reply, due in cases:
            with self.subTest(reply=reply):
                self.say(reply, kind)
                self.answers(due)

    def test_an_average_that_is_rounded_is_said_exactly_too(self):
        self.open("")
        self.assertIn("exactly 12,345.67 / 8", self.say('{"num":1234567,"den":8}', "avg"))
        self.assertNotIn("exactly", self.say('{"num":1001,"den":4}', "avg"))

    def test_each_refusal_and_denial_has_its_sentence(self):
        cases = [('{"denied":"wide"}', "Not answered", "larger numbers than this table allows"), ('{"denied":"unsafe"}', "Not answered", "a person's value or a protected total"),
                 ('{"refused":"empty"}', "Not asked", "No row satisfies"), ('{"refused":"full"}', "Not asked", "The history is full"),
                 ('{"refused":"long"}', "Not asked", "8,192 bytes"), ('{"refused":"another"}', "Not asked", "another"),
                 ('{"denied":"constructor"}', "Not answered", "constructor")]
        self.open("")
        for reply, verdict, words in cases:
            with self.subTest(reply=reply):
                said = self.say(reply)
                self.assertEqual(self.browser.find("#answer .verdict").text, verdict)
                self.assertIn(words, said)
                self.assertEqual(self.browser.all("#answer .number"), [])

    def test_what_the_door_withholds_is_hatched_and_the_others_go_on(self):
        self.open(lambda _, question: (422, '{"error":"fewer than 5 rows"}') if "= 'A'" in question["where"] else (200, '{"sum":700}'))
        self.browser.write("age > 1 or age < 0")
        self.draw("sum pay", "constructor", 2)
        self.assertEqual(self.bars(), [["A", "fewer than 5 rows", "hatched"], ['B, "x"', "7.00 EUR", "bar"]])
        self.assertEqual(self.door.questions("sum")[0]["where"], "(age > 1 or age < 0) and constructor = 'A'")
        self.browser.driver.get_log("browser")                  # the browser's own line on a status of 422

    def test_a_count_has_no_column_and_each_kind_its_own(self):
        self.open("")
        shown = {}
        for kind in ("count", "sum", "max"):
            self.browser.run("document.querySelector(`#kinds input[value=${arguments[0]}]`).click()", kind)
            shown[kind] = [one.text for one in self.browser.all("#column option")] if self.browser.find("#of").is_displayed() else None
        self.assertEqual(shown, {"count": None, "sum": ["pay"], "max": ["best"]})
        self.assertFalse(self.browser.find("#table-choice").is_displayed())
        self.assertFalse(self.browser.find("#parts-note").is_displayed())

    def test_protected_totals_are_listed_beside_their_column(self):
        totals = [{"column": "pay", "where": where} for where in ("constructor = '<b>A</b>'", *(f"age > {age}" for age in range(6)))]
        self.open("", {"schema.json": json.dumps({"protect": totals, "columns": [*COLUMNS, {"name": "tax", "is": "sum"}]})})
        holds = {line.find_element("css selector", "code, th").text: line.find_elements("tag name", "td")[-1].text
                 for line in self.browser.all("#columns tr")}
        self.assertEqual((holds["tax"], holds["pay"]), (
            "totals and averages", "totals and averages. Protected: the total where constructor = '<b>A</b>'; where age > 0; where age > 1; "
            "where age > 2; where age > 3; and 2 more in schema.json"))

    def test_rows_that_no_question_is_over_are_told_in_words_and_not_counted(self):
        only = {"schema.json": json.dumps({"columns": COLUMNS, "only": "age < 50", "width": 4})}
        self.whole = 2
        self.open("", only)
        self.browser.wait(lambda: "holds for 2 of 2 rows" in self.browser.text("holds"))
        self.assertTrue(self.browser.text("limits").startswith("Every question is over the rows where age < 50. This table has a width of 4:"))
        self.browser.write("age > 99")
        self.browser.wait(lambda: "holds for 0 of 2 rows" in self.browser.text("holds"))
        self.browser.click("#everyone")
        self.browser.click("#add")
        self.assertEqual([one.text for one in self.browser.all("li select[aria-label=value] option")], ["A", 'B, "x"'])
        self.open("", {**files("north/"), **files("south/"), "tables.json": '["north","south"]', "north/schema.json": only["schema.json"]})
        self.assertTrue(self.browser.text("limits").startswith("Every question is over the rows where age < 50 (north); where all (south). "))
        self.open("")
        self.browser.click("#add")
        self.assertEqual([one.text for one in self.browser.all("li select[aria-label=value] option")], ["A (2)", 'B, "x" (1)'])
        self.assertEqual(self.browser.text("limits"), "")

    def test_a_width_and_a_reach_are_told_in_words(self):
        for limits, due in (({}, []), ({"width": 4}, ["a width of 4:"]), ({"reach": 4096}, ["a reach of 4,096:"]),
                            ({"width": 2**56, "reach": 2}, ["a width of more than 9,007,199,254,740,991:", "a reach of 2:"]), ({"width": "4"}, [])):
            with self.subTest(limits=limits):
                self.open("", {"schema.json": json.dumps({"columns": COLUMNS, **limits})})
                said = self.browser.text("limits")
                self.assertEqual([words for words in ("a width of", "a reach of") if words in said], [words[:10] for words in due])
                for words in due:
                    self.assertIn(words, said)

    def test_who_asks_and_of_how_few_is_told_in_words(self):
        for limits, due in (({}, ""), ({"askers": "outside", "fewest": "3"}, ""), ({"askers": "inside"}, "People in the table may ask here:"),
                            ({"fewest": 3}, "What fewer than 3 people have is guarded"), ({"askers": "inside", "fewest": 1000}, "What fewer than 1,000 people have")):
            with self.subTest(limits=limits):
                self.open("", {"schema.json": json.dumps({"columns": COLUMNS, **limits})})
                said = self.browser.text("limits")
                self.assertIn(due, said)
                self.assertEqual(said == "", due == "")

    def test_a_denial_of_a_protected_total_says_so(self):
        totals = [{"column": "pay", "where": "age > 30 "}]
        self.open("", {"schema.json": json.dumps({"protect": totals, "columns": COLUMNS})})
        for kind, where, named in (("sum", " age > 30", True), ("avg", "age > 30", True), ("sum", "age > 31", False), ("max", "age > 30", False)):
            with self.subTest(kind=kind, where=where):
                self.browser.write(where)
                said = self.say('{"denied":"unsafe"}', kind)
                self.assertEqual("This total is protected, so it is never answered." in said, named)
                self.assertEqual("Another condition may be answered." in said, not named)
                self.reply = '{"verdict":"unsafe"}'
                self.assertEqual("This total is protected, so it is never answered." in self.browser.ask("would"), named)

    def test_each_certificate_has_its_sentence(self):
        totals = [{"column": "pay", "where": "age > 99"}, {"column": "pay", "where": "constructor = '<b>A</b>'"}]
        far = "5192296858534827628530496329220096"
        cases = [
            ("sum", {"row": 2, "times": 1, "by": [[0, -1], [1, 1], [2, -1], [3, -1]], "asked": 1},
             'The number of row 2 is record 1 and the answer asked for, less records 0, 2 and 3. Row 2: constructor A, age +50.'),
            ("avg", {"row": 0, "times": 2, "by": [[0, 1], [4, -3]], "asked": -4},
             "2 times the number of row 0 is record 0, less 3 times record 4 and 4 times the answer asked for. Row 0"),
            ("sum", {"group": 0, "times": 1, "by": [[7, int(far)]], "asked": -1},
             "The protected total where constructor = '<b>A</b>' is 5,192,296,858,534,827,628,530,496,329,220,096 times record 7, less the answer asked for."),
            ("sum", {"row": 0, "times": 1, "by": [[place, 1] for place in range(20)], "asked": 1}, "9, 10 and 11, 8 more and the answer asked for."),
            ("max", {"answer": 8, "row": 1, "pair": 1, "high": [8, 9, 8]},
             'Were the answer 8, row 1 would be the only one of record 1 that can have the 9. Row 1: constructor B, "x", age 40.'),
            ("max", {"answer": -5, "row": 0, "pair": "asked", "high": [-5, 9, 9]}, "Were the answer -5, row 0 would be the only one that can have it. Row 0"),
            ("sum", {"proof": "wide"}, "its certificate would need larger numbers than are told"),
        ]
        self.open("", {"schema.json": json.dumps({"protect": totals, "columns": COLUMNS})})
        for kind, line, words in cases:
            with self.subTest(words=words):
                self.assertIn(words, self.why(json.dumps({"verdict": "unsafe", **line}), kind))
                self.assertEqual(self.browser.all("#answer p b"), [])

    def test_records_have_the_transcripts_questions_only_if_those_fit(self):
        asked = [("sum", "pay", "all"), ("avg", "pay", "age > 30"), ("max", "best", "all")]
        lines = [json.dumps({"ask": ask, "column": column, "where": where}) + "\n" + reply
                 for (ask, column, where), reply in zip(asked, ('{"sum":900}', '{"num":5,"den":1}', '{"max":9}'))]
        lines.insert(1, '{"ask":"sum","column":"pay","where":"age = 30"}\n{"denied":"unsafe"}')
        totals, health = [{"column": "pay", "where": "age < 40"}], {"state": "serving", "records": 3, "room": 65533, "transcript": 400, "compacted": 0}
        more = {"schema.json": json.dumps({"protect": totals, "columns": COLUMNS}), "transcript.jsonl": "\n".join(lines) + "\n"}
        rows = {"all": 3, "age > 30": 2, "age < 40": 1, "age = 40": 1}
        one = {"row": 0, "times": 1, "by": [[0, 1]], "asked": -1}
        for line, kind, where, words in (
                (one, "sum", "age > 30", "Total of pay, all rows, answered, less this total would be the pay of one person: A, 30."),
                (one, "avg", "age > 30", "Total of pay, all rows, answered, less the total of this average would be the pay of one person: A, 30."),
                ({"row": 1, "times": 2, "by": [[0, -1], [1, 2]], "asked": 1}, "sum", "age = 40",
                 "2 times Average of pay where age > 30, answered, as a total and this total, less Total of pay, all rows, answered would be "
                 '2 times the pay of one person: B, "x", 40.'),
                ({"group": 0, "times": 1, "by": [[0, 1]], "asked": -1}, "sum", "age > 30", "less this total would be the protected total where age < 40."),
                ({"answer": 8, "row": 1, "pair": 2, "high": [8, 9, 8]}, "max", "all",
                 'Were this answer 8, one person alone of Greatest of best, all rows, answered could have the 9: B, "x", 40.'),
                ({**one, "by": [[1, 1]]}, "sum", "age > 30", "The number of row 0 is record 1, less the answer asked for."),         # the rows don't add up
                ({**one, "by": [[2, 1]]}, "sum", "age > 30", "The number of row 0 is record 2, less the answer asked for."),         # another column
                ({**one, "by": [[9, 1]]}, "sum", "age > 30", "The number of row 0 is record 9, less the answer asked for.")):
            with self.subTest(words=words):
                self.assertIn(words, self.explained(line, kind, where, rows, {**more, "health": json.dumps(health)}))
                self.assertEqual(len(self.browser.all("#answer p a")), len(line.get("by", [0])) if "answered" in words or "group" in line else 0)
        for other in ({"compacted": 1}, {"earlier": 2}, {"transcript": 2**30}, {"compacted": None}):
            with self.subTest(other):
                said = self.explained(one, "sum", "age > 30", rows, {**more, "health": json.dumps({**health, **other})})
                self.assertIn("The number of row 0 is record 0, less the answer asked for.", said)

    def explained(self, line, kind, where, rows, more):
        """What is said of a denied question over a door that has these files, counts so many rows of each condition, and explains by a line."""
        self.open("", more)
        self.door.reply = lambda path, question: (200, json.dumps(
            {"count": rows[question["where"]]} if question["ask"] == "count" else {"verdict": "unsafe", **line} if path == "/why"
            else {"denied": "unsafe"}))
        self.browser.run("document.querySelector(`#kinds input[value=${arguments[0]}]`).click()", kind)
        self.browser.write(where)
        self.browser.ask()
        self.browser.click("#answer button")
        self.browser.wait(lambda: self.browser.all("#answer details"))
        return self.browser.text("answer")

    def test_what_is_near_is_said_whatever_comes(self):
        found = {"ask": "sum", "column": "pay", "where": "constructor in ('A', '<b>')"}
        near = lambda **more: json.dumps({"verdict": "unsafe", "near": found, "rows": 1200, "more": 1000, "fewer": 3, **more})
        self.open("")
        for text, words in ((near(), "would be answered: constructor in ('A', '<b>') for 1,200 rows, 1,000 more and 3 fewer."), (near(rows=1, more=0), "for 1 row, 3 fewer."),
                            (near(near=None), "No question near this one"), (near(near=None, verdict="released"), "It would be answered now."),
                            ((503, '{"error":"too many verdicts are wanted"}'), "too many verdicts are wanted"), ((502, "<b>no</b>"), "says 502")):
            with self.subTest(words=words):
                self.reply = lambda path, _: (text if isinstance(text, tuple) else (200, text)) if path == "/near" else (200, '{"denied":"wide"}')
                self.browser.ask()
                self.assertEqual([button.text for button in self.browser.all("#answer button")], ["What is near?"])
                self.browser.click("#answer button")
                self.browser.wait(lambda: "Nothing was asked" in self.browser.text("answer"))
                self.assertIn(words, self.browser.text("answer"))
                self.assertEqual(self.browser.all("#answer p b"), [])
        self.browser.faults()               # the two that aren't 200

    def test_a_table_of_too_many_cells_isnt_asked(self):
        rows = "constructor,age\n" + "".join(f"team {number},{number % 12}\n" for number in range(400))
        self.open('{"sum":500}', {"table.csv": rows})
        self.browser.choose("#by-too", "age")
        self.assertIn("That would be 403 questions (the 30 largest of 400 groups), and at most 400 are asked at once.", self.browser.text("chart-hint"))
        before = len(self.door.asked)
        self.browser.click("#draw")
        self.assertEqual((len(self.door.asked), self.browser.text("draw")), (before, "Draw"))

    def test_what_is_no_certificate_is_said(self):
        self.open("")
        for line, words in (('{"verdict":"released"}', "It would be answered now"), ('{"verdict":"another"}', "another"), ("<p>", "JSON"),
                            ((501, '{"error":"this door says nothing"}'), "this door says nothing"), ((502, "<b>no</b>"), "says 502"),
                            ('{"verdict":"unsafe","group":0,"times":1,"by":[],"asked":1}', "schema.json hasn't")):
            with self.subTest(line=line):
                self.assertIn(words, self.why(line))
        self.browser.faults()               # the two that aren't 200

    def why(self, line, kind="sum"):
        """What the answer's box has once somebody asks why a question is denied."""
        said = line if isinstance(line, tuple) else (200, line)
        self.say(lambda path, question: said if path == "/why" else (200, '{"denied":"unsafe"}'), kind)
        self.browser.click("#answer button")
        self.browser.wait(lambda: len(self.browser.all("#answer button")) == 1)         # what is near
        return self.browser.text("answer")

    def test_a_list_of_protected_totals_that_isnt_one_is_passed_over(self):
        self.open('{"sum":500}', {"schema.json": json.dumps({"protect": "all", "columns": COLUMNS})})
        self.assertIn("5.00 EUR", self.browser.ask())

    def test_bars_are_as_long_as_their_numbers_on_either_side_of_zero(self):
        pay = {"30": -100, "40": 300, "50": 0}
        self.open(lambda _, question: (200, json.dumps({"sum": pay[question["where"][-2:]]})))
        self.draw("sum pay", "age", 3)
        places = self.browser.run("""return [...document.querySelectorAll('.bar')].map(bar => [bar.style.left, bar.style.width])""")
        self.assertEqual(places, [["0%", "25%"], ["25%", "75%"], ["25%", "0%"]])

    def test_a_busy_door_is_asked_again(self):
        said = iter([(503, '{"error":"too many wait"}'), (503, '{"error":"too many wait"}')])
        self.open("")
        self.assertIn("5.00 EUR", self.say(lambda *_: next(said, (200, '{"sum":500}'))))
        self.assertEqual(len(self.door.questions("sum")), 3)
        self.browser.driver.get_log("browser")

    def test_what_the_door_or_a_proxy_says_is_shown_and_the_next_question_is_answered(self):
        cases = [((503, '{"error":"journal damaged at byte 9"}'), "journal damaged at byte 9"), ((504, '{"error":"no reply yet"}'), "no reply yet"),
                 ((502, "<b>Bad Gateway</b>"), "says 502"), ((200, "{}"), "isn't one that this page knows")]
        self.open("")
        for reply, words in cases:
            with self.subTest(words=words):
                said = self.say(lambda *_, reply=reply: reply)
                self.assertEqual(self.browser.find("#answer .verdict").text, "No reply")
                self.assertIn(words, said)
                self.assertEqual(self.browser.text("history"), "Nothing yet.")
        self.say('{"sum":500}')
        self.answers("5.00 EUR")
        self.browser.driver.get_log("browser")

    def test_a_door_that_is_gone_is_said_to_be(self):
        self.open('{"sum":500}')
        self.door.close()
        self.assertIn("The door can't be reached.", self.browser.ask())
        self.browser.wait(lambda: "can't be reached" in self.browser.text("state"))
        self.browser.driver.get_log("browser")

    def test_a_second_click_asks_nothing_more(self):
        told = threading.Event()
        self.open(lambda *_: told.wait(PATIENCE) and (200, '{"sum":500}'))
        self.browser.run("for (let i = 0; i < 3; i++) document.getElementById('ask').click()")
        told.set()
        self.browser.wait(lambda: "5.00" in self.browser.text("answer"))
        self.assertEqual(len(self.door.questions("sum")), 1)

    def test_a_chart_can_be_stopped(self):
        told = threading.Event()
        self.addCleanup(told.set)
        self.open(lambda *_: (200, '{"sum":500}') if len(self.door.questions("sum")) < 2 or told.wait(PATIENCE) else (503, ""))
        self.browser.choose("#by", "age")
        self.browser.click("#draw")
        self.browser.wait(lambda: "Asked 1 of 3" in self.browser.text("chart-hint"))
        self.browser.click("#draw")
        self.browser.wait(lambda: "Asked 1 of 3: stopped" in self.browser.text("chart-hint"))
        self.assertEqual(len(self.bars()), 1)

    def test_notes_of_other_kinds_and_names_of_the_language_do_no_harm(self):
        self.open('{"max":9}')
        self.assertEqual(self.browser.text("title"), "Ask the table")
        self.assertIn("constructor", self.browser.text("columns"))
        self.browser.click("#add")
        self.assertEqual([one.text for one in self.browser.all("li select[aria-label=value] option")], ["A (2)", 'B, "x" (1)'])
        self.browser.run("document.querySelector('#kinds input[value=max]').click()")
        self.browser.ask()
        self.answers("9")

    def test_notes_that_cant_be_read_are_said_to_be(self):
        self.door = ScriptedDoor({**files(), "notes.json": '{"columns":'}, self.each)
        self.addCleanup(self.door.close)
        self.browser.driver.get(self.door.url)
        self.browser.wait(lambda: self.browser.text("state") == "notes.json isn't JSON.")

    def test_of_many_groups_the_largest_are_drawn_and_that_is_said(self):
        rows = "constructor,age\nrare,0\n" + "".join(f"team {number},1\nteam {number},2\n" for number in range(39))
        self.open('{"sum":500}', {"table.csv": rows})
        self.assertEqual(self.browser.text("chart-hint"), "Draw asks 30 questions, one for each group (the 30 largest of 40 groups).")
        self.draw("sum pay", "constructor", 30)
        self.assertNotIn("rare", [label for label, _, _ in self.bars()])

    def test_control_and_enter_ask_and_enter_alone_begins_a_line(self):
        self.open('{"sum":500}')
        area = self.browser.find("#where")
        area.send_keys(CONTROL + ENTER)
        self.browser.wait(lambda: "5.00 EUR" in self.browser.text("answer"))
        area.send_keys(ENTER)
        self.assertEqual(area.get_property("value").strip(), "all")
        self.assertIn("\n", area.get_property("value"))
        self.assertEqual(len(self.door.questions("sum")), 1)

    def test_fifty_tables_are_asked_as_parts_of_one(self):
        names = [f"t{number}" for number in range(50)]
        parts = {"tables.json": json.dumps(names)}
        for name in names:
            parts |= files(f"{name}/")
        self.open(lambda path, _: (200, '{"verdict":"released"}' if path.endswith("would") else '{"sum":500}'), parts)
        self.assertTrue(self.browser.ask().startswith("250.00 EUR"))
        self.assertEqual(sorted({path for path, question, _ in self.door.asked if question["ask"] == "sum" and path.endswith("ask")}),
                         sorted(f"/{name}/ask" for name in names))

    def test_the_group_of_the_most_rows_is_asked_first(self):
        """As the program counts them within the condition, and not as the public columns have them."""
        counts = {"constructor = 'A'": 2, "constructor = 'B'": 7, "constructor = 'C'": 5, "all": 20}
        rows = "constructor,age\n" + "A,30\n" * 4 + "B,30\n" * 3 + "C,30\n" * 2
        self.open('{"sum":500}', {"table.csv": rows})
        self.door.reply = lambda _, question: (200, json.dumps({question["ask"]: next(
            (size for part, size in counts.items() if part in question["where"]), 14)}))
        self.draw("sum pay", "constructor", 3)
        self.assertEqual([question["where"][-3:] for question in self.door.questions("sum")], ["'B'", "'C'", "'A'"])
        self.assertEqual([label for label, _, _ in self.bars()], ["A", "B", "C"])
        self.browser.choose("#by-too", "age")
        self.browser.click("#draw")
        self.browser.wait(lambda: self.browser.text("draw") == "Draw" and self.browser.all(".cross"))
        self.assertEqual([question["where"] for question in self.door.questions("sum")[3:]][:3], ["all", "age = 30", "constructor = 'B' and age = 30"])

    def test_ranges_of_a_number_that_most_rows_share(self):
        rows = "constructor,age\n" + "A,0\n" * 500 + "".join(f"A,{age}\n" for age in range(1, 14))
        self.open('{"sum":500}', {"table.csv": rows})
        self.draw("sum pay", "age", 2)
        self.assertEqual([question["where"] for question in self.door.questions("sum")], ["age < 1", "age >= 1"])

    def test_long_names_and_numbers_fit_360_pixels(self):
        name, value = "a" * 32, "x" * 120
        columns = [{"name": name, "is": "text"}, {"name": "pay", "is": "sum"}]
        notes = {"title": "T" * 100, "columns": {"pay": {"title": "Very " * 20, "decimals": 2, "unit": "EUR per month"}}}
        self.browser.screen(360)
        self.open('{"sum":-4096000000000000}', {"schema.json": json.dumps({"columns": columns}), "notes.json": json.dumps(notes),
                                                "table.csv": f"{name}\n{value}\n{value}y\n"})
        self.browser.click("#add")
        self.browser.choose("li select[aria-label=comparison]", "in")
        self.browser.ask()
        self.draw("sum pay", name, 2)
        self.assertEqual(self.browser.too_wide(360), [])

    def test_what_is_typed_keeps_its_sign_and_its_decimals(self):
        self.open('{"sum":500}', {"notes.json": '{"columns":{"age":{"decimals":2}}}'})
        self.browser.click("#add")
        self.browser.choose("#parts select", "age")
        field = self.browser.find("#parts input")
        cases = [("-1.5", "-150"), ("-0.05", "-5"), ("0.07", "7"), ("12", "1200"), ("-0", "0"), ("1.234", "1.234"), ("1,5", "1,5"), ("x", "x")]
        for typed, due in cases:
            field.clear()
            field.send_keys(typed)
            self.assertEqual(self.browser.find("#where").get_property("value"), "age = " + due)

    def test_a_spoilt_history_of_the_browser_is_passed_over(self):
        self.open('{"sum":500}')
        entries = '[null, {"question": {"ask": "drop", "where": ""}, "text": "x"}, {"question": {"ask": "sum", "where": 4}, "text": "x"}]'
        for text in ('{"a":', "7", entries):
            self.browser.run("localStorage.setItem('auditor: /', arguments[0])", text)
            self.browser.driver.refresh()
            self.browser.wait(lambda: "holds for 3" in self.browser.text("holds"))
            self.assertEqual(self.browser.text("history"), "Nothing yet.")

    def test_only_the_last_typed_condition_is_counted(self):
        """Typed by a script: between the keys of a person, or of a slow browser, there is time for a count."""
        def reply(_, question):
            where = question["where"]
            return 200, json.dumps({"count": {"age >= 3": 1, "age >= 30": 2}.get(where, 3)})
        self.open('{"sum":500}')
        self.door.reply = reply
        before = len(self.door.questions("count"))
        self.browser.run("""const area = document.getElementById("where");
            for (let end = 1; end <= arguments[0].length; end++) {
                area.value = arguments[0].slice(0, end);
                area.dispatchEvent(new Event("input", {bubbles: true}));
            }""", "age >= 30")
        self.browser.wait(lambda: "holds for 2 of 3" in self.browser.text("holds"))
        self.assertEqual([question["where"] for question in self.door.questions("count")[before:]], ["age >= 30"])


class Reports(OneTable):
    """What the page makes of reports."""

    LONG = 9876543210987654321098765432109876

    def report(self, *lines):
        text = "".join(json.dumps(line, separators=(",", ":")) + "\n" for line in lines)
        self.open('{"sum":500}', {"report.jsonl": text})
        self.browser.click("#report")
        self.browser.wait(lambda: "leave it open" not in self.browser.text("free-summary"))

    def pay(self, *rows):
        return [{"column": "pay", "row": row, "direction": [[0, -self.LONG], [row, 1]]} for row in rows]

    def test_numbers_of_34_digits_keep_each_digit(self):
        self.report(*self.pay(0, 1, 2), {"column": "best", "high": [9, 9, 9]}, {"audited": 2, "columns": 2, "rows": 3})
        self.browser.click("#free summary")
        self.browser.wait(lambda: self.browser.all(".square"))
        self.browser.all(".square")[2].click()
        self.assertIn(f"row 0 {-self.LONG:,}, row 2 +1", self.browser.find("#free [role=status]").text)
        self.assertIn("Row 2: constructor A, age", self.browser.find("#free [role=status]").text)

    def test_a_number_that_the_report_lacks_isnt_called_free(self):
        self.report(*self.pay(0, 2), {"column": "best", "high": [9, 9]}, {"audited": 2, "columns": 2, "rows": 3})
        self.assertEqual([one.text for one in self.browser.all("#free summary")],
                         ["pay: 2 of 3 numbers are free", "best: 2 of 3 numbers are free"])
        self.browser.click("#free summary")
        self.browser.wait(lambda: self.browser.all(".square"))
        self.browser.all(".square")[1].click()
        self.assertIn("The report has nothing on this number", self.browser.find("#free [role=status]").text)

    def test_lines_of_protected_totals_are_no_rows(self):
        self.report(*self.pay(0, 1, 2), {"column": "pay", "group": 0, "direction": [[0, 1]]}, {"column": "best", "high": [9, 9, 9]},
                    {"audited": 2, "columns": 2, "rows": 3})
        self.assertEqual(self.browser.find("#free summary").text, "pay: 3 of 3 numbers are free")

    def test_a_report_that_isnt_whole_is_said_to_be(self):
        self.report(*self.pay(0, 1, 2))
        self.assertEqual(self.browser.text("free-summary"), "The report isn't whole.")
        self.open('{"sum":500}')
        self.browser.click("#report")
        self.browser.wait(lambda: self.browser.text("free-summary") == "No report has been made yet.")


class SeveralTables(PageCase):
    """Two tables behind one door, each with rows of its own."""

    def open(self, replies, south=ROWS):
        """`replies` are by table and kind."""
        def reply(path, question):
            table, place = path.strip("/").split("/")
            return 200, json.dumps(replies[table][place if place == "would" else question["ask"]])
        self.door = ScriptedDoor({**files("north/"), **files("south/", south), "tables.json": '["north","south"]'}, reply)
        self.addCleanup(self.door.close)
        self.browser.open(self.door.url)

    def say(self, kind="sum"):
        self.browser.run("document.querySelector(`#kinds input[value=${arguments[0]}]`).click()", kind)
        return self.browser.ask()

    def test_totals_add_up_averages_are_weighed_and_the_greatest_is_that_of_all(self):
        released = {"verdict": "released"}
        self.open({"north": {"would": released, "count": {"count": 3}, "sum": {"sum": 600}, "avg": {"num": 200, "den": 1}, "max": {"max": -4}},
                   "south": {"would": released, "count": {"count": 1}, "sum": {"sum": -700}, "avg": {"num": -700, "den": 1}, "max": {"max": -2}}})
        self.assertIn("holds for 4 of 6 rows", self.browser.text("holds"))
        for kind, due in (("count", "4"), ("sum", "-1.00 EUR"), ("avg", "-0.25 EUR"), ("max", "-2")):
            said = self.say(kind)
            self.answers(due)
            self.assertIn("north: ", said)
        self.assertIn("answers given: 4, room for 131,068", self.browser.text("state"))
        self.assertIn("rows of one person are in two tables", self.browser.text("parts-note"))

    def test_what_follows_from_earlier_answers_is_said_to_add_nothing_new(self):
        new, old = {"verdict": "released"}, {"verdict": "released", "new": False}
        self.open({"north": {"would": new, "count": {"count": 3}}, "south": {"would": old, "count": {"count": 3}}})
        said = self.browser.ask("would").splitlines()
        self.assertEqual([line for line in said if "adds nothing new" in line],
                         ["south: It would be answered now. It adds nothing new: the answer follows from earlier ones."])

    def test_where_a_part_would_deny_none_is_asked(self):
        self.open({"north": {"would": {"verdict": "released"}, "count": {"count": 3}},
                   "south": {"would": {"verdict": "unsafe"}, "count": {"count": 3}}})
        said = self.say()
        self.assertEqual(self.browser.find("#answer .verdict").text, "Not answered")
        self.assertIn("south: not answered", said)
        self.assertIn("north: not asked", said)
        self.assertEqual(self.browser.all("#answer .number"), [])
        self.assertEqual(self.door.questions("sum"), [question for path, question, _ in self.door.asked if path.endswith("would")])

    def test_a_part_without_rows_adds_nothing(self):
        self.open({"north": {"would": {"verdict": "released"}, "count": {"count": 3}, "sum": {"sum": 600}},
                   "south": {"count": {"count": 0}}})
        self.assertIn("south: no rows", self.say())
        self.answers("6.00 EUR")

    def test_a_group_that_no_part_has_is_said_to_have_no_row(self):
        self.open({"north": {"count": {"count": 0}}, "south": {"count": {"count": 0}}})
        self.assertIn("No row satisfies the condition.", self.say("max"))
        self.assertEqual(self.door.questions("max"), [])

    def test_a_part_that_the_door_withholds_is_named(self):
        self.open({"north": {"would": {"verdict": "released"}, "count": {"count": 3}},
                   "south": {"would": {"error": "fewer than 5 rows"}, "count": {"count": 3}}})
        self.door.reply = lambda path, question, ready=self.door.reply: (422 if path == "/south/would" else 200, ready(path, question)[1])
        said = self.say()
        self.assertIn("south: fewer than 5 rows", said)
        self.assertEqual(self.browser.find("#answer .verdict").text, "Not asked")
        self.browser.driver.get_log("browser")

    def test_one_table_is_asked_alone(self):
        self.open({"north": {"count": {"count": 3}}, "south": {"count": {"count": 3}, "sum": {"sum": 800}}})
        self.browser.wait(lambda: self.browser.all("#table option"))
        self.browser.choose("#table", "south")
        self.browser.wait(lambda: "holds for 3 of 3" in self.browser.text("holds"))
        before = len(self.door.asked)
        self.say()
        self.answers("8.00 EUR")
        self.assertEqual([path for path, _, _ in self.door.asked[before:]], ["/south/ask"])
        self.assertEqual(self.browser.find("#files a").get_attribute("href"), self.door.url + "/south/transcript.jsonl")
        self.assertIn("south: Total of pay, all rows", self.browser.text("history"))


if __name__ == "__main__":
    unittest.main()

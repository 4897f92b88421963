"""One question, one record: an answer is looked up by what is asked, however it is written."""
import asyncio
import json
import random
import sys
import unittest

from case import DoorCase
from kit import FRONT, SEED, ask, health, line_of
from test_protected import PUBLIC, ROWS, drawn

sys.path.insert(0, str(FRONT))
from doorway.asked import Questions, question_of  # noqa: E402
from preparing.conditions import read_condition  # noqa: E402

LOW, HIGH = 20, 149


def ways():
    """The same sum as people may write it, over the same rows each time."""
    where, also = f"k >= {LOW} and k <= {HIGH}", f"k > {LOW - 1} and not (k >= {HIGH + 1} or k > 10000)"
    ask = {"ask": "sum", "column": "salary"}
    return [
        *(json.dumps({"user": f"user {number}", **ask, "where": where}).encode() for number in range(20)),
        *(json.dumps({**ask, "where": text}).encode() for text in (where, also, f"({where})", f"not not ({where})", where.replace("and", " and\t"))),
        json.dumps({"where": where, **ask}, indent=1).replace("\n", " ").encode(),
        json.dumps({**ask, "where": where}, separators=(",", ":")).replace("sum", "\\u0073um").encode(),
        b'{"ask":"max","ask":"sum","column":"k","column":"salary","where":"all","where":"%s"}' % where.encode(),
        b"  " + json.dumps({**ask, "where": where}).encode() + b" \t ",
    ]


class SameQuestion(DoorCase):
    async def replies(self, lines, path="/ask"):
        async with self.door.session() as session:
            await self.door.ready(session)
            return [await ask(session, line, path) for line in lines], await health(session)

    async def test_one_question_makes_one_record_however_it_is_written(self):
        due = b'{"sum":%d}\n' % self.folder.due("sum", LOW, HIGH)["sum"]
        self.door.start()
        replies, said = await self.replies(ways())
        self.assertEqual(set(replies), {(200, due)})
        self.assertEqual((said["records"], said["asked"]), (1, 1))
        # The next door knows it from the file, and so does a verdict.
        self.assertEqual(self.door.stop(), 0)
        self.door.start()
        replies, said = await self.replies(ways())
        self.assertEqual((set(replies), said["asked"]), ({(200, due)}, 0))
        verdicts, _ = await self.replies(ways()[-4:], "/would")
        self.assertEqual(set(verdicts), {(200, b'{"verdict":"released","new":false}\n')})
        self.assertEqual(self.door.stop(), 0)
        self.assertEqual(len(self.folder.journal()), 1)
        self.check_all()

    async def test_askers_at_once_who_write_it_otherwise_make_one_record(self):
        self.door.start()
        async with self.door.session() as session:
            await self.door.ready(session)
            replies = await asyncio.gather(*(ask(session, line) for line in ways() * 3))
        self.assertEqual({reply for _, reply in replies}, {b'{"sum":%d}\n' % self.folder.due("sum", LOW, HIGH)["sum"]})
        self.assertEqual(self.door.stop(), 0)
        self.assertEqual(len(self.folder.journal()), 1)

    async def test_other_rows_another_column_and_another_kind_are_other_questions(self):
        where = f"k >= {LOW} and k <= {HIGH}"
        asked = [("sum", "salary", where), ("avg", "salary", where), ("max", "bonus", where), ("sum", "salary", where + " or k = 3 or k = 9"),
                 ("count", None, where), ("sum", "bonus", where), ("sum", "nothing", where), ("sum", "salary", "k >= ")]
        lines = [json.dumps({key: value for key, value in (("ask", kind), ("column", column), ("where", text)) if value}).encode()
                 for kind, column, text in asked]
        self.door.start()
        replies, said = await self.replies(lines)
        values = [json.loads(body) for _, body in replies]
        rows = self.folder.inside(LOW, HIGH)
        self.assertEqual(values[0], {"sum": sum(row[2] for row in rows)})
        self.assertEqual(values[1]["num"] * len(rows), sum(row[2] for row in rows) * values[1]["den"])
        self.assertEqual(values[2:], [{"max": max(row[3] for row in rows)},
                                      {"sum": sum(row[2] for row in [*rows, self.folder.rows[3], self.folder.rows[9]])},
                                      {"count": len(rows)}, {"refused": "kind"}, {"refused": "column"}, {"refused": "where", "at": 5}])
        self.assertEqual(said["records"], 4)
        self.assertEqual(self.door.stop(), 0)
        self.check_all()


class Reading(unittest.TestCase):
    """What a line asks, beside the conditions as they are read for each row."""

    def setUp(self):
        columns = [*({"name": name, "is": kind} for name, kind in PUBLIC.items()), {"name": "pay", "is": "sum"}]
        quoted = ",".join(PUBLIC) + "".join('\n"%s",%d' % (str(row["team"]).replace('"', '""'), row["age"]) for row in ROWS)
        self.questions = Questions(json.dumps({"columns": columns}).encode(), quoted.encode())

    def test_conditions_hold_for_the_rows_that_they_mean(self):
        draw = random.Random(SEED)
        for text in (drawn(draw, 4) for _ in range(2000)):
            with self.subTest(text):
                due = sum(1 << place for place, row in enumerate(ROWS) if read_condition(text, PUBLIC)(row))
                self.assertEqual(self.questions.rows_of(text), due)

    def test_what_isnt_a_question_goes_on_as_it_is(self):
        good = {"ask": "sum", "column": "pay", "where": "all"}
        for line in (b"x", b"[]", b'"sum"', b"\xff", json.dumps({**good, "user": 7}).encode(), json.dumps({**good, "more": "x"}).encode(),
                     json.dumps({**good, "ask": "median"}).encode(), json.dumps({**good, "column": None}).encode(), b'{"ask":"sum","where":"all"}',
                     json.dumps({**good, "user": "\ud800"}).encode(), json.dumps({**good, "ask": "count"}).encode(), b"[" * 8000):
            self.assertIsNone(question_of(line), line)
            asked = self.questions.read(line)
            self.assertEqual((asked.line, asked.key), (line, line))

    def test_a_user_is_left_out_and_the_rest_means_the_same(self):
        for where in ("team = 'Zoë'", "team = '\"\\'", "age = 3\tor all", "all", "\u2028"):
            question = {"ask": "avg", "column": "pay", "where": where}
            for line in (json.dumps({"user": "ann", **question}), json.dumps({**question, "user": ""}, ensure_ascii=False)):
                asked = self.questions.read(line.encode())
                self.assertEqual(json.loads(asked.line), question)
                self.assertLessEqual(len(asked.line), len(line.encode()))


if __name__ == "__main__":
    unittest.main()

"""What is near a denied question: it would be answered, nothing nearer would, and nothing is asked or kept."""
import asyncio
import json
import random
import re
import sys
import time
import unittest

from case import DoorCase
from kit import FRONT, SEED, ask, health, line_of

sys.path.insert(0, str(FRONT))
from planning.columns import Columns  # noqa: E402
from planning.nearness import merged, near  # noqa: E402
from planning.parts import joined, parts_of  # noqa: E402

SCHEMA = b'{"columns":[{"name":"team","is":"text"},{"name":"age","is":"number"},{"name":"wave","is":"number"},{"name":"pay","is":"sum"}]}'
TABLE = b"team,age,wave\nA,30,1\nA,31,1\nB,33,1\nB,36,2\nB,40,2\nIt's,52,3\n"


class Parts(unittest.TestCase):
    """The parts of conditions, and what is near them, over six rows by hand."""
    columns = Columns(SCHEMA, TABLE)

    def wheres(self, where, least=0):
        return [(one.where, one.more, one.fewer) for one in near(where, self.columns, least)]

    def test_a_condition_is_read_into_its_parts(self):
        for where, parts in (("all", []), ("team='A'and age>=041", ["team = 'A'", "age >= 41"]), ("(team = 'A') and (age < 3 and all)", ["team = 'A'", "age < 3"]),
                             ("team in ('B', 'A', 'B')", ["team in ('A', 'B')"]), ("not team = 'A' and age = 3", ["not team = 'A'", "age = 3"]),
                             ("age = 3 or age = 4", ["(age = 3 or age = 4)"]), ("( age = 3 or all ) and team = 'It''s'", ["( age = 3 or all )", "team = 'It''s'"]),
                             ("not (age = 3 and age = 4) and team != 'A'", ["not (age = 3 and age = 4)", "team != 'A'"])):
            found = parts_of(where, self.columns.publics)
            self.assertEqual([part.text for part in found], parts)
            rows = self.columns.everyone
            for part in found:
                rows &= part.rows(self.columns)
            self.assertEqual(rows, self.columns.rows_where(where), where)
            self.assertEqual(rows, self.columns.rows_where(joined(found)), where)

    def test_the_nearest_come_first_with_how_many_more_and_fewer(self):
        self.assertEqual(self.wheres("age >= 40"), [("age >= 36", 1, 0), ("age >= 52", 0, 1), ("age >= 40 and wave <= 2", 0, 1), ("age >= 33", 2, 0),
                                                    ("age >= 31", 3, 0), ("age >= 30", 4, 0)])
        self.assertEqual(self.wheres("team = 'A' and age <= 30"), [("team = 'A' and age <= 31", 1, 0)])
        self.assertIn(("team in ('A', 'B')", 3, 0), self.wheres("team = 'A'"))
        self.assertIn(("all", 4, 0), self.wheres("team = 'A'"))

    def test_a_value_is_taken_out_too(self):
        self.assertIn(("team = 'B'", 0, 1), self.wheres("team in ('B', 'It''s')"))

    def test_the_rows_of_an_earlier_wave_are_near(self):
        self.assertIn(("team = 'B' and wave <= 1", 0, 2), self.wheres("team = 'B'"))
        self.assertIn(("wave <= 2", 0, 1), self.wheres("all"))
        self.assertFalse(any(where.count("wave") > 1 for where, _, _ in self.wheres("wave = 1")))

    def test_the_least_size_holds_inside_and_outside(self):
        sizes = {one.rows.bit_count() for one in near("team = 'A'", self.columns, 2)}
        self.assertTrue(sizes <= {2, 3, 4, 6}, sizes)
        self.assertEqual(self.wheres("age = 52", 4), [("all", 5, 0)])

    def test_merged_ones_are_over_all_rows_of_the_first(self):
        self.assertEqual([one.where for one in merged("team = 'It''s'", self.columns)], ["team in ('A', 'It''s')", "team in ('B', 'It''s')", "team in ('A', 'B', 'It''s')"])


class Near(DoorCase):
    rows = 60

    async def near(self, session, line, status=200, **headers):
        found, body = await ask(session, line, "/near", **headers)
        self.assertEqual(found, status, body)
        return json.loads(body)

    async def start(self, session, *words):
        self.door.words += [str(word) for word in words]
        self.door.start()
        await self.door.ready(session)

    async def test_each_denial_has_a_near_question_that_is_answered_and_nothing_is_kept(self):
        chance, found = random.Random(SEED), 0
        async with self.door.session() as session:
            await self.start(session)
            await self.client(session, 0, 120)
            denied = list({line: None for _, line, body in self.told if body == b'{"denied":"unsafe"}\n'})
            self.assertGreater(len(denied), 10)
            transcript = self.folder.transcript()
            for line in chance.sample(denied, 10):
                said = await self.near(session, line)
                self.assertEqual(self.folder.transcript(), transcript)
                if said["near"] is None:                    # a maximum that became safe, or has none
                    continue
                found += 1
                asked, other = said["near"]["ask"], json.dumps(said["near"]).encode()
                status, verdict = await ask(session, other, "/would")
                self.assertEqual((status, json.loads(verdict)["verdict"]), (200, "released"))
                self.check_rows(json.loads(line)["where"], said)
            self.assertGreater(found, 5)
            self.assertEqual(list(json.loads((await ask(session, other))[1])), [asked])
        self.end_and_check()

    def check_rows(self, where, said):
        """The counts of a reply, by the rows."""
        low, high = map(int, re.findall(r"\d+", where))
        numbers = [int(number) for number in re.findall(r"\d+", said["near"]["where"])]
        here, there = set(range(low, high + 1)), set(range(self.rows))
        for mark, number in zip(re.findall(r"[<>]=", said["near"]["where"]), numbers):
            there &= {row for row in range(self.rows) if (row >= number if mark == ">=" else row <= number)}
        self.assertEqual((said["rows"], said["more"], said["fewer"]), (len(there), len(there - here), len(here - there)))

    async def test_it_is_the_nearest_that_is_answered(self):
        """After everybody's total the one over all but one is denied, and the nearest is that of everybody, which costs nothing."""
        async with self.door.session() as session:
            await self.start(session)
            await self.ask(session, ("sum", 0, 59), line_of("sum", 0, 59))
            said = await self.near(session, line_of("sum", 1, 59))
            self.assertEqual(said, {"verdict": "unsafe", "near": {"ask": "sum", "column": "salary", "where": "k >= 0 and k <= 59"},
                                    "rows": 60, "more": 1, "fewer": 0, "tried": 1})
            self.assertEqual(await self.near(session, line_of("sum", 2, 59)), {"verdict": "released", "near": None})
        self.end_and_check()

    async def test_an_average_and_a_maximum_have_one_too(self):
        async with self.door.session() as session:
            await self.start(session)
            for kind, column in (("avg", "salary"), ("max", "bonus")):
                said = await self.near(session, json.dumps({"ask": kind, "column": column, "where": "k = 7"}).encode())
                self.assertEqual((said["verdict"], said["near"]["ask"], said["rows"]), ("unsafe", kind, 2))
        self.end_and_check()

    async def test_the_least_size_holds(self):
        async with self.door.session() as session:
            await self.start(session, "--least", 10)
            said = await self.near(session, line_of("sum", 30, 35))
            self.assertEqual((said["verdict"], said["rows"], said["more"], said["fewer"]), ("withheld", 10, 4, 0))
            self.assertEqual((await ask(session, json.dumps(said["near"]).encode()))[0], 200)
            for line in (line_of("sum", 7, 7), line_of("sum", 3, 59)):
                found = await self.near(session, line)
                self.assertTrue(found["near"] is None or 10 <= found["rows"] <= 50 or found["rows"] == 60, found)
        self.assertEqual(self.door.stop(), 0)

    async def test_what_isnt_a_question_has_nothing_near(self):
        async with self.door.session() as session:
            await self.start(session)
            for body, status in ((b"x", 422), (line_of("count", 0, 5), 422), (b"", 400), (b"y" * 8193, 413)):
                await self.near(session, body, status)
            await self.near(session, line_of("sum", 0, 5), 415, **{"Content-Type": "text/plain"})
            await self.near(session, line_of("sum", 0, 5), 403, **{"Sec-Fetch-Site": "cross-site"})
            for where in ("k >", "k >= 900", "age = 3"):
                self.assertEqual(await self.near(session, json.dumps({"ask": "sum", "column": "salary", "where": where}).encode()),
                                 {"verdict": "refused", "near": None})
            self.assertEqual((await health(session))["asked"], 0)
        self.end_and_check()

    async def test_answers_go_on_and_many_get_each_their_own(self):
        async with self.door.session() as session:
            await self.start(session)
            lines = [line_of("sum", row, row) for row in range(8)]
            found = await asyncio.gather(*(self.near(session, line) for line in lines), *(self.client(session, number, 3) for number in range(4)))
            for row, said in enumerate(found[:8]):
                self.assertIn(row, range(*[int(number) + place for place, number in enumerate(re.findall(r"\d+", said["near"]["where"]))]))
        self.end_and_check()


class Large(DoorCase):
    """1,000 rows and 500 answers. A machine that does other work may take longer, so the time is said and a generous one is held."""
    rows = 1000

    async def test_it_takes_one_run_of_simulate_and_no_long_time(self):
        self.door.start()
        async with self.door.session() as session:
            await self.door.ready(session)
            await asyncio.gather(*(self.client(session, number, 35) for number in range(24)))
            records = (await health(session))["records"]
            denied = list({line: None for _, line, body in self.told if b"denied" in body})[:5]
            began = time.monotonic()
            for line in denied:
                self.assertEqual((await ask(session, line, "/near"))[0], 200)
            each = (time.monotonic() - began) / len(denied)
            print(f"near: {each:.2f} s each, over {self.rows} rows and {records} answers", file=sys.stderr)
            self.assertGreater(records, 400)
            self.assertLess(each, 30)
        self.assertEqual(self.door.stop(), 0)


if __name__ == "__main__":
    unittest.main()

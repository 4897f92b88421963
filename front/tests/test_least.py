"""The least size of groups: what is over too few rows, or leaves too few out, isn't handed on."""
import json
import random
import unittest

from case import DoorCase
from kit import SEED, ask, health, line_of


class Least(DoorCase):
    words = ("--least", 10)

    async def test_questions_over_too_few_rows_are_not_handed_on(self):
        few = (422, {"error": "fewer than 10 rows", "code": "few"})
        self.door.start()
        async with self.door.session() as session:
            await self.door.ready(session)
            for low, high, answered in [(0, 9, True), (0, 8, False), (50, 50, False), (300, 400, False), (0, 199, True),
                                        (0, 189, True), (0, 190, False), (1, 199, False), (20, 29, True)]:
                status, body = await ask(session, line_of("sum", low, high))
                if not answered:
                    self.assertEqual((status, json.loads(body)), few, (low, high))
                    status, body = await ask(session, line_of("sum", low, high), "/would")
                    self.assertEqual((status, json.loads(body)), few, (low, high))
                else:
                    self.assertEqual((status, json.loads(body)), (200, self.folder.due("sum", low, high)), (low, high))
            self.assertEqual((await ask(session, line_of("count", 0, 0))), (200, b'{"count":1}\n'))
            status, body = await ask(session, b'{"ask":"avg","column":"salary","where":"k = 7"}')
            self.assertEqual((status, json.loads(body)), few)
            status, body = await ask(session, b'{"ask":"max","column":"bonus","where":"k = 7"}')
            self.assertEqual((status, json.loads(body)), few)
            # The program itself says what is wrong with a question.
            self.assertEqual(await ask(session, b'{"ask":"sum","column":"salary","where":"k >="}'), (200, b'{"refused":"where","at":4}\n'))
            self.assertEqual(await ask(session, b'{"ask":"sum","column":"bonus","where":"all"}'), (200, b'{"refused":"kind"}\n'))
        self.assertEqual(self.door.stop(), 0)
        for column, rows, _ in self.folder.journal():
            self.assertTrue(10 <= len(rows) <= 190 or len(rows) == 200)
        self.check_all()

    async def test_no_way_of_writing_a_question_gets_around_it(self):
        """The row with k = 7 alone, and all but it, in other words."""
        lines = [
            b'{"ask":"sum","column":"salary","where":"all","where":"k = 7"}',
            b'{"ask":"count","ask":"sum","column":"salary","where":"k = 7"}',
            b'{"ask":"s\\u0075m","column":"salary","where":"k = 7"}',
            b'{"ask":"sum","column":"salary","wh\\u0065re":"k = 7"}',
            b'{"where":"all","ask":"sum","column":"salary","\\u0077here":"not k = 7"}',
            b' {"ask":"sum","column":"salary","where":"k\\u0020= 7"} ',
            b'{"user":"ann","ask":"sum","column":"salary","where":"k in (7)"}',
            b'\xef\xbb\xbf{"ask":"sum","column":"salary","where":"k = 7"}',
            '{"ask":"sum","column":"salary","where":"k = 7"}'.encode("utf-16"),
            '{"ask":"sum","column":"salary","where":"k = 7"}'.encode("utf-32-be"),
            b'{"ask":"sum","column":"salary","where":"k = 7","user":"\\ud800"}',
            b'{"ask":"sum","column":"salary","where":"k = 7 or team = \'\\ud800\'"}',
            b'{"ask":"sum","column":"salary","where":"k = 7","user":' + b"1" * 5000 + b"}",
            b'{"ask":"sum","column":"salary","where":"k = 7","user":' + b"[" * 2000 + b"]" * 2000 + b"}",
            b'{"ask":"sum","column":"salary","where":"k = 7","user":NaN}',
            b'[{"ask":"sum","column":"salary","where":"k = 7"}]',
            b'{"ask":"sum","column":"salary","where":"k = 7"}\0',
        ]
        self.door.start()
        async with self.door.session() as session:
            await self.door.ready(session)
            for line in lines:
                status, body = await ask(session, line)
                self.assertEqual(status, 422, (line[:80], body))
            self.assertEqual((await health(session))["records"], 0)
        self.assertEqual(self.door.stop(), 0)
        self.assertEqual(self.folder.journal(), [])

    async def test_no_changed_byte_gets_around_it(self):
        """400 questions over one row, with bytes changed at random: none makes a record over too few rows."""
        chance = random.Random(SEED)
        self.door.start()
        async with self.door.session() as session:
            await self.door.ready(session)
            for _ in range(400):
                line = bytearray(b'{"ask":"sum","column":"salary","where":"k = %d","user":"a"}' % chance.randrange(200))
                for _ in range(chance.choice([1, 1, 2, 4])):
                    line[chance.randrange(len(line))] = chance.choice(b'"\\u{}[],:=<>! \'wherk0123456789\xe9')
                self.assertIn((await ask(session, bytes(line)))[0], (200, 422))
        self.assertEqual(self.door.stop(), 0)
        for _, rows, _ in self.folder.journal():
            self.assertTrue(10 <= len(rows) <= 190 or len(rows) == 200)
        self.check_all()


class Without(DoorCase):
    async def test_without_a_least_size_a_question_over_one_row_is_the_programs_to_deny(self):
        self.door.start()
        async with self.door.session() as session:
            await self.door.ready(session)
            self.assertEqual(await ask(session, line_of("sum", 7, 7)), (200, b'{"denied":"unsafe"}\n'))
        self.assertEqual(self.door.stop(), 0)


if __name__ == "__main__":
    unittest.main()

"""Questions that are asked once before the door listens: in their order, before anybody else's, and what is said of them."""
import asyncio
import os
import subprocess
import unittest

from case import DoorCase
from kit import AUDITOR, ask, health, line_of

# Of a sum and the same without one person the second is denied.
LINES = [line_of("sum", 5, 40), line_of("sum", 0, 59), line_of("sum", 1, 59), line_of("max", 0, 30), line_of("sum", 2, 50)]


class FirstCase(DoorCase):
    rows = 60

    def setUp(self):
        super().setUp()
        self.file = self.folder.path / "first.jsonl"
        self.write(LINES)
        self.door.words += ["--first", str(self.file)]

    def write(self, lines):
        self.file.write_bytes(b"".join(line + b"\n" for line in lines))

    async def served(self):
        """Starts the door, and gives what it counts once it listens."""
        self.door.start()
        async with self.door.session() as session:
            await self.door.ready(session)
            return await health(session)


class First(FirstCase):
    async def test_a_plan_is_asked_in_its_order_before_anybody_is_heard(self):
        self.door.start()
        async with self.door.session() as session:
            await self.door.ready(session)
            self.assertEqual([line for line, _ in self.folder.transcript()], LINES)
            self.assertEqual(await ask(session, line_of("sum", 0, 58)), (200, b'{"denied":"unsafe"}\n'))
            self.assertEqual((await health(session))["records"], 4)
        self.assertIn("first: 4 of 5 questions are answered, and the door listens now", self.folder.said())
        self.assertIn("first: not answered:\nline 3: denied unsafe", self.folder.said())
        self.end_and_check()

    async def test_it_is_asked_once(self):
        await self.served()
        self.assertEqual(self.door.stop(), 0)
        self.assertEqual((await self.served())["asked"], 0)
        self.assertEqual(self.door.stop(), 0)
        self.assertEqual(self.folder.said().count("questions are answered"), 1)
        self.write([*LINES, line_of("sum", 10, 20)])
        self.assertEqual((await self.served())["records"], 5)
        self.end_and_check()

    async def test_a_door_that_was_stopped_before_the_end_makes_no_second_record(self):
        await self.served()
        self.assertEqual(self.door.stop(), 0)
        (self.folder.public / "first.sha256").unlink()
        told = await self.served()
        self.assertEqual((told["records"], told["repeats"], told["asked"]), (4, 4, 1))
        self.assertEqual(self.folder.said().count("first: 4 of 5 questions are answered"), 2)
        self.end_and_check()

    async def test_what_isnt_a_question_is_said_and_the_rest_goes_on(self):
        self.door.words += ["--least", "5"]
        self.write([b"x", line_of("sum", 0, 3), line_of("sum", 0, 59), b"", line_of("sum", 70, 80), b"y" * 9000])
        self.assertEqual((await self.served())["records"], 1)
        for text in ("1 of 5 questions are answered", "line 1: this isn't a question", "line 2: fewer than 5 rows", "line 5: fewer than 5 rows",
                     "line 6: a question has at most 8,192 bytes"):
            self.assertIn(text, self.folder.said())
        self.end_and_check()

    async def test_a_missing_file_is_named(self):
        self.file.unlink()
        self.door.start()
        await self.ends()
        self.assertIn("first.jsonl", self.folder.said())


class Away(FirstCase):
    """A program that doesn't start yet."""

    def setUp(self):
        super().setUp()
        (self.folder.path / "answers.journal").unlink()

    async def test_the_door_listens_once_the_plan_could_be_asked(self):
        self.door.start()
        await self.until(lambda: "first: waits, and the door doesn't listen: The history of answers isn't there" in self.folder.said())
        self.assertFalse(os.path.exists(self.door.socket))
        subprocess.run([AUDITOR, "init"], cwd=self.folder.path, check=True)
        async with self.door.session() as session:
            await self.door.ready(session)
        self.assertEqual([line for line, _ in self.folder.transcript()], LINES)
        self.end_and_check()

    async def test_a_door_that_waits_can_be_stopped(self):
        self.door.start()
        await self.until(lambda: "first: waits" in self.folder.said())
        self.assertEqual(await asyncio.to_thread(self.door.stop), 0)
        self.assertFalse((self.folder.public / "first.sha256").exists())
        self.assertNotIn("listening", self.folder.said())


if __name__ == "__main__":
    unittest.main()

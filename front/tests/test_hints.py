"""What the door says of a wrong condition: what ask.py says, without asking the program.

Start: AUDITOR=/path/of/the/program /usr/bin/python3 -m unittest -v test_hints.
"""
import json
import time
import unittest

from case import DoorCase
from kit import health
from test_ask import WRONG

COLUMNS = {"team": "text", "age": "number", "weight_x10": "number", "salary": "sum", "bonus": "max"}


class Hints(DoorCase):
    """Over the door's own table, and over the columns of the list of wrong conditions."""

    rows = 6

    def make_door(self):
        door = super().make_door()
        self.folder.public.joinpath("notes.json").write_text(json.dumps({"columns": {"k": {"decimals": 1}, "team": 7}}))
        return door

    async def hint(self, session, line, due=200):
        if isinstance(line, str):
            line = json.dumps({"ask": "count", "where": line}, ensure_ascii=False).encode()
        async with session.post("/hint", data=line, headers={"Content-Type": "application/json"}) as response:
            self.assertEqual(response.status, due, line)
            return await response.json()

    async def test_a_wrong_condition_has_its_place_a_sentence_and_a_better_one(self):
        self.door.start()
        async with self.door.session() as session:
            await self.door.ready(session)
            asked = (await health(session))["asked"]
            for where, at, words, better in (
                    ("k == 4", 3, "= is written in place of ==.", "k = 4"), ("k > 7.5", 5, "k is kept in steps of 0.1: write 75.", None),
                    ("team = QA", 7, "stands in single quotes: 'QA'", None), ("kk > 1", 0, "did you mean k?", None),
                    ("k >", 3, "ends too early", None), ("k == 4 and kk = 1", 3, "= is written in place of ==.", None)):
                said = await self.hint(session, where)
                self.assertEqual((said["at"], said["write"]), (at, better), where)
                self.assertIn(words, said["hint"])
            self.assertEqual(await self.hint(session, "k >= 4"), {"at": None, "hint": None, "write": None})
            for line in (b"{}", b"[]", b"{", b'{"where":5}'):
                self.assertIn("isn't a question", (await self.hint(session, line, 422))["error"])
            self.assertEqual((await health(session))["asked"], asked)

    async def test_no_condition_takes_long_or_breaks_it(self):
        self.door.start()
        async with self.door.session() as session:
            await self.door.ready(session)
            for where in ("k > " + "9" * 8000, "k > 1." + "9" * 8000, "a" * 8000, "'" * 8001, "a between " * 800, "k == " * 1600, "(" * 8000,
                          "k not in " * 880, "k = 1" + " or k == 1" * 790, b'{"where":"\\ud800 == 1"}', "k > 0" + "," * 7000, "“" * 2600):
                began = time.monotonic()
                said = await self.hint(session, where)
                self.assertEqual(list(said), ["at", "hint", "write"])
                self.assertLess(time.monotonic() - began, 5, where[:20])

    def test_the_sentences_are_those_of_the_terminal(self):
        from doorway.hinting import Hints as OfTheDoor
        hints = OfTheDoor(self)
        self.public = self.folder.path / "other"
        self.public.mkdir()
        (self.public / "schema.json").write_text(json.dumps({"columns": [{"name": name, "is": kind} for name, kind in COLUMNS.items()]}))
        (self.public / "notes.json").write_text('{"columns":{"weight_x10":{"decimals":1}}}')
        for where, at, words, better in WRONG:
            with self.subTest(where):
                said = hints._on(where)
                self.assertEqual((said["at"], said["write"]), (at, better))
                self.assertIn(words, said["hint"])


if __name__ == "__main__":
    unittest.main()

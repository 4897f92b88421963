"""A test over one folder and its door, which ends with the same check of all that was told."""
import asyncio
import json
import random
import re
import time
import unittest

import aiohttp

from kit import PATIENCE, SECRETS, SEED, Door, Folder, ask, health

BOUND = re.compile(r"k ([<>]=) (-?\d+)")
WORK = 0.1                          # seconds of work within which it is killed


class DoorCase(unittest.IsolatedAsyncioTestCase):
    """`words` are the door's arguments, `rows` the size of the table, `protect` the conditions of totals that stay open."""

    words, rows, protect = (), 200, ()

    def setUp(self):
        self.folder = Folder(self.rows, protect=self.protect)
        self.door = self.make_door()
        self.told = []                      # question, line, reply

    def make_door(self):
        return Door(self.folder, *self.words)

    def tearDown(self):
        self.door.end()
        self.folder.remove()

    async def ask(self, session, question, line):
        """Asks once. What was told is kept for the check."""
        status, body = await ask(session, line)
        if status == 200:
            self.told.append((question, line, body))
        return status, body

    async def client(self, session, number, count, patient=False, enough=lambda: True):
        """Asks random questions one after the other, at least so many, and on until it's enough. A patient one asks each until it
        gets a reply."""
        chance, asked = random.Random(f"{SEED} {self.id()} {number}"), 0
        while asked < count or not enough():
            question, line = self.folder.draw(chance)
            while not await self.once(session, question, line) and patient:
                await asyncio.sleep(0.03)
            asked += 1

    async def once(self, session, question, line):
        try:
            return (await self.ask(session, question, line))[0] == 200
        except (aiohttp.ClientError, OSError):
            return False

    async def until(self, holds):
        """Waits until something holds."""
        end = time.monotonic() + PATIENCE
        while not holds():
            self.assertLess(time.monotonic(), end, self.folder.said())
            await asyncio.sleep(0.02)

    async def until_health(self, session, name, least=1):
        """Waits until the door counts so many, `waiting` or `asked`, say."""
        end = time.monotonic() + PATIENCE
        while (await health(session))[name] < least:
            self.assertLess(time.monotonic(), end, self.folder.said())
            await asyncio.sleep(0.02)

    async def under_kills(self, kill, kills, clients, questions):
        """Patient clients that ask on until all kills were made and each has so many replies. Then what was told is checked.

        `kill` gives whether there was something to kill.
        """
        self.door.start()
        async with self.door.session() as session:
            await self.door.ready(session)
            killing = asyncio.ensure_future(self.kill_again_and_again(session, kill, kills))
            asking = (self.client(session, number, questions, patient=True, enough=killing.done) for number in range(clients))
            await asyncio.gather(killing, *asking)
            await self.door.ready(session)
        self.assertEqual(killing.result(), kills)
        self.assertGreaterEqual(len(self.told), clients * questions)
        self.end_and_check()

    async def kill_again_and_again(self, session, kill, kills):
        """Kills in turn in the midst of work, once a question that was asked since the last kill has its reply, and on the way back
        to work, at a moment of the time that the last way back took. So a faster or a slower machine sees the same kills."""
        chance, back, made = random.Random(f"{SEED} {self.id()}"), 0, 0
        for number in range(kills):
            at_work = number % 2 == 0
            if at_work:
                began = time.monotonic()
                await self.client(session, f"before kill {number}", 1, patient=True)
                back = time.monotonic() - began
            await asyncio.sleep(chance.random() * (WORK if at_work else back))
            made += bool(await kill())
        return made

    async def kill_the_program(self):
        """Kills the run that there is, or the next one."""
        while not self.door.kill_programs():
            await asyncio.sleep(0.002)
        return True

    def asked_by(self, line):
        """Kind and rows of a question as `line_of` writes it, maybe within one more bound, as after a growth."""
        question = json.loads(line)
        bounds = [(mark, int(number)) for mark, number in BOUND.findall(question["where"])]
        low, high = (choose([number for mark, number in bounds if mark == one], default=default)
                     for choose, one, default in ((max, ">=", 0), (min, "<=", len(self.folder.rows))))
        return question["ask"], frozenset(row[1] for row in self.folder.inside(low, high))

    def check_told(self, torn=False):
        """Each reply is that of the asker's own question, by the rows; each that was decided is in the transcript, under this question or
        another one that asks the same, and each answer on a secret in the journal."""
        pairs, journal = set(self.folder.transcript(torn)), set(self.folder.journal())
        asked = {(*self.asked_by(line), reply) for line, reply in pairs}
        for (kind, low, high), line, body in self.told:
            reply = json.loads(body)
            if kind == "count" or "denied" not in reply:
                self.assertEqual(reply, self.folder.due(kind, low, high), line)
            rows = frozenset(row[1] for row in self.folder.inside(low, high))
            if kind != "count" and (line, body[:-1]) not in pairs:
                self.assertIn((kind, rows, body[:-1]), asked)
            if kind != "count" and "denied" not in reply:
                column = [name for name, _, _ in SECRETS].index(kind)
                self.assertIn((column, rows, reply[kind]), journal)

    def check_all(self):
        """What was told, and the transcript as others check it: the decisions by `simulate`, the answers by a replay."""
        self.check_told()
        self.assertEqual(self.folder.simulate(), (0, ""))
        self.assertEqual(self.folder.replay(), [reply for _, reply in self.folder.transcript()])

    async def ends(self, status=1):
        """The door's own end."""
        code = await asyncio.to_thread(self.door.process.wait, PATIENCE)
        self.assertEqual(code, status, self.folder.said())

    def end_and_check(self):
        """The door ends with 0 if it is told to, and what it told was right."""
        self.assertEqual(self.door.stop(), 0)
        self.check_all()

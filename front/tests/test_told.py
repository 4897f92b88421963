"""What askers are told of a program that ends: the door's own sentences, whatever the program writes to its standard error."""
import asyncio
import csv
import json
import os
import signal
import unittest

import loud
import test_door
from case import DoorCase
from kit import AUDITOR, AWAY, HERE, Door, Folder, ask, health, line_of

RAISE = 12_345
CODES = [*range(2, 23), 99, 255, "signal"]


def due(code):
    """The sentence for an end."""
    return AWAY["killed"] if code == "signal" else AWAY.get(str(code), AWAY["other"])


class Raised(DoorCase):
    """A number of the table is changed after it was answered: the program's text has the new total, and the raise follows from it."""

    def give_a_raise(self):
        path = self.folder.path / "table.csv"
        with open(path, newline="") as file:
            rows = list(csv.reader(file))
        rows[5][2] = str(int(rows[5][2]) + RAISE)
        with open(path, "w", newline="") as file:
            csv.writer(file).writerows(rows)

    async def test_no_asker_learns_the_raise(self):
        async with self.door.start().session() as session:
            await self.door.ready(session)
            _, body = await ask(session, line_of("sum", 0, 99))
            before = json.loads(body)["sum"]
            self.give_a_raise()
            told = [await ask(session, line_of("sum", 0, 0), "/why")]
            self.assertEqual(told, [(503, json.dumps({"error": AWAY["11"], "code": "away"}).encode())])
            self.door.kill_programs()
            told.append(await ask(session, line_of("sum", 2, 160)))
            self.assertEqual((await health(session))["state"], f"stopped: {AWAY['11']}")
            told += [await ask(session, line_of("sum", 3, 160), path) for path in ("/ask", "/would", "/why")]
            for path in ("/health", "/report.jsonl", "/transcript.jsonl"):
                async with session.get(path) as response:
                    told.append((path, await response.read()))
        self.assertEqual(self.door.stop(), 0)
        self.check_silence(told, before)
        self.assertIn(f"record 0 holds {before}, table gives {before + RAISE}", self.folder.said())


    def check_silence(self, told, before):
        """Nothing that was told has the raise, or the total after it."""
        for where, body in told:
            for number in (str(before + RAISE).encode(), str(RAISE).encode(), b"table gives"):
                self.assertNotIn(number, body, where)


class RaisedBehindSockets(Raised):
    """The same behind sockets, where the program's text reaches nobody but its own user."""

    def make_door(self):
        return test_door.OfAnotherUser.make_door(self)

    def listen(self, command, path):
        return test_door.OfAnotherUser.listen(self, command, path)

    def tearDown(self):
        super().tearDown()
        for process in self.sockets:
            os.killpg(process.pid, signal.SIGTERM)
            process.wait()

    async def test_no_asker_learns_the_raise(self):
        async with self.door.start().session() as session:
            await self.door.ready(session)
            before = json.loads((await ask(session, line_of("sum", 0, 99)))[1])["sum"]
            self.give_a_raise()
            self.door.kill_programs()
            told = [await ask(session, line_of("sum", number, 160), path) for number, path in enumerate(("/ask", "/why", "/would", "/ask"))]
            self.assertEqual({status for status, _ in told[:2]}, {503})
            async with session.get("/health") as response:
                told.append(("/health", await response.read()))
        self.assertEqual(self.door.stop(), 0)
        self.check_silence([*told, ("the log", self.folder.said().encode())], before)


class Told(unittest.IsolatedAsyncioTestCase):
    """A program of which a command ends with a code and a text that would tell something."""

    def setUp(self):
        self.folder = Folder(40)
        self.code = self.folder.path / "code"
        os.environ.update(AUDITOR=AUDITOR, CODE=str(self.code))
        self.door = Door(self.folder, auditor=str(HERE / "loud.py"))
        self.addCleanup(self.folder.remove)
        self.addCleanup(self.door.end)

    def set_loud(self, *commands):
        os.environ["LOUD"] = " ".join(commands)

    async def test_verdicts_and_reasons_are_refused_with_a_sentence_for_each_code(self):
        self.set_loud("simulate", "explain")
        async with self.door.start().session() as session:
            await self.door.ready(session)
            for code in CODES:
                self.code.write_text(str(code))
                for path in ("/would", "/why", "/near"):
                    status, body = await ask(session, line_of("sum", 0, 9), path)
                    if path == "/why" and code == "signal":
                        continue        # the shell around it makes a code of it
                    self.assertEqual((status, json.loads(body)), (503, {"error": due(code), "code": "away"}), (path, code))
            self.assertEqual((await ask(session, line_of("count", 0, 9)))[0], 200)
        self.assertEqual(self.door.stop(), 0)
        # Of a `simulate` that a signal ended the log has the signal alone, and of one with code 14 that the transcript has a gap.
        self.assertGreaterEqual(self.folder.said().count(loud.SAID), 3 * len(CODES) - 4)

    async def test_a_program_that_doesnt_begin_is_said_with_a_sentence_for_its_code(self):
        self.set_loud("serve")
        for code in (4, 11, 12, 99, "signal"):
            self.code.write_text(str(code))
            async with self.door.start().session() as session:
                await self.door.ready(session, "stopped")
                sentence = due(code)
                for path in ("/ask", "/why"):
                    status, body = await ask(session, line_of("sum", 0, 9), path)
                    self.assertEqual(status, 503)
                    self.assertIn(sentence, json.loads(body)["error"])
                    self.assertNotIn(b"23087207", body)
                self.assertEqual((await health(session))["state"], f"stopped: {sentence}")
            self.assertEqual(await asyncio.to_thread(self.door.stop), 0)
        self.assertIn(loud.SAID, self.folder.said())

    def test_what_a_change_of_a_number_is_said_with_doesnt_tell_it_from_another_table(self):
        """Which code it was would tell that a number changed, and not the rows."""
        self.assertEqual(AWAY["10"], AWAY["11"])
        self.assertEqual(AWAY["12"], AWAY["11"])


if __name__ == "__main__":
    unittest.main()

"""Why a question is denied: the certificates, that answers go on meanwhile, and what is said if `explain` says none."""
import asyncio
import json
import os
import pathlib
import random
import shutil
import subprocess
import sys
import tempfile
import unittest

import aiohttp

from case import DoorCase
from kit import AUDITOR, AWAY, FRONT, HERE, PATIENCE, SEED, Door, Folder, ask, health, line_of

SCRIPT = FRONT.parent / "demo" / "check_certificate.py"
ODD = str(HERE / "odd_explain.py")


def explained(folder, lines):
    """What the program itself says of some lines, in its folder."""
    run = subprocess.run([AUDITOR, "explain"], cwd=folder.path, input=b"".join(line + b"\n" for line in lines), capture_output=True)
    return run.stdout.splitlines()


def held(folder, lines, replies):
    """What the script in demo/ says of certificates, by the public columns and the journal."""
    (folder.path / "explained.jsonl").write_bytes(b"".join(line + b"\n" for line in lines))
    run = subprocess.run([sys.executable, str(SCRIPT), "explained.jsonl"], cwd=folder.path, input=b"".join(replies), capture_output=True)
    return run.stdout.decode().strip()


class WhyCase(DoorCase):
    """A door whose copies of the journal are made in a folder that has to be empty at the end of each test."""
    rows = 60

    def setUp(self):
        self.copies = pathlib.Path(tempfile.mkdtemp(prefix="copies-"))
        os.environ.update(TMPDIR=str(self.copies), AUDITOR=AUDITOR)
        super().setUp()

    def tearDown(self):
        os.environ.pop("TMPDIR")
        super().tearDown()
        shutil.rmtree(self.copies)

    async def start(self, session, *words):
        self.door.words += [str(word) for word in words]
        self.door.start()
        await self.door.ready(session)

    async def nothing_is_left(self):
        await self.until(lambda: not list(self.copies.iterdir()))

    async def why(self, session, line, status=200, **headers):
        found, body = await ask(session, line, "/why", **headers)
        self.assertEqual(found, status, body)
        return body


class Certificates(WhyCase):
    """Over the program."""

    async def drawn(self, session, count):
        """Some questions that were denied as unsafe, after a history of random ones."""
        await self.client(session, 0, count)
        return list({line: None for _, line, body in self.told if body == b'{"denied":"unsafe"}\n'})

    async def test_each_denial_has_a_certificate_that_the_script_takes(self):
        async with self.door.session() as session:
            await self.start(session)
            denied = await self.drawn(session, 200)
            self.assertGreater(len(denied), 10)
            journal, transcript = (self.folder.path / "answers.journal").read_bytes(), self.folder.transcript()
            replies = [await self.why(session, line) for line in denied]
            self.assertEqual((self.folder.path / "answers.journal").read_bytes(), journal)
            self.assertEqual(self.folder.transcript(), transcript)
            unsafe = sum(json.loads(reply)["verdict"] == "unsafe" for reply in replies)
            self.assertGreater(unsafe, len(denied) // 2)
            self.assertIn(f"{len(denied)} lines: {unsafe} certificates hold, 0 are too wide", held(self.folder, denied, replies))
            self.assertEqual((await health(session))["restarts"], 0)
        await self.nothing_is_left()
        self.end_and_check()
        self.assertEqual([reply[:-1] for reply in replies], explained(self.folder, denied))

    async def test_askers_at_once_get_each_the_line_of_their_own_question(self):
        async with self.door.session() as session:
            await self.start(session)
            denied = (await self.drawn(session, 120))[:12]
            lines = [random.Random(f"{SEED} {number}").choice(denied) for number in range(48)]
            replies = await asyncio.gather(*(self.why(session, line) for line in lines))
        self.end_and_check()
        due = dict(zip(denied, explained(self.folder, denied)))
        self.assertGreater(len(set(due.values())), 3)
        self.assertEqual([reply[:-1] for reply in replies], [due[line] for line in lines])
        await self.nothing_is_left()

    async def test_it_goes_by_the_history_as_it_is_when_somebody_asks(self):
        first, rest = line_of("sum", 0, 29), line_of("sum", 1, 29)
        async with self.door.session() as session:
            await self.start(session)
            self.assertEqual(await self.why(session, rest), b'{"verdict":"released"}\n')
            await self.ask(session, ("sum", 0, 29), first)
            self.assertEqual(await self.why(session, rest), b'{"verdict":"unsafe","row":0,"times":1,"by":[[0,1]],"asked":-1}\n')
            await self.ask(session, ("max", 0, 59), line_of("max", 0, 59))
            self.assertEqual(await self.why(session, line_of("count", 0, 5)), b'{"verdict":"count"}\n')
            self.assertEqual(await self.why(session, b"x"), b'{"verdict":"refused"}\n')
        self.end_and_check()

    async def test_a_body_is_taken_as_that_of_a_question(self):
        async with self.door.session() as session:
            await self.start(session)
            await self.why(session, b"", 400)
            await self.why(session, line_of("sum", 0, 5) + b"\n" + line_of("sum", 0, 6), 400)
            await self.why(session, b"y" * 8193, 413)
            await self.why(session, line_of("sum", 0, 5), 415, **{"Content-Type": "text/plain"})
            await self.why(session, line_of("sum", 0, 5), 403, **{"Sec-Fetch-Site": "cross-site"})
            self.assertEqual(await self.why(session, b"y" * 8192), b'{"verdict":"refused"}\n')
            async with session.get("/why") as response:
                self.assertEqual(response.status, 405)
        self.end_and_check()

    async def test_what_isnt_handed_on_isnt_explained_either(self):
        async with self.door.session() as session:
            await self.start(session, "--least", 5)
            self.assertIn(b"fewer than 5 rows", await self.why(session, line_of("sum", 0, 3), 422))
            self.assertEqual(await self.why(session, line_of("sum", 0, 9)), b'{"verdict":"released"}\n')
        self.assertEqual(self.door.stop(), 0)


class Odd(WhyCase):
    """Over an `explain` that takes long, ends, or says something else."""

    def setUp(self):
        super().setUp()
        self.go = self.folder.path / "go"
        os.environ.update(EXPLAIN="wait", GO=str(self.go))

    def make_door(self):
        return Door(self.folder, auditor=ODD)

    async def explaining(self):
        """Waits until a certificate is being made."""
        await self.until(lambda: list(self.copies.iterdir()))

    async def test_answers_go_on_while_a_certificate_takes_long(self):
        async with self.door.session() as session:
            await self.start(session, "--explain-patience", 10 * PATIENCE)
            asking = asyncio.ensure_future(self.why(session, line_of("sum", 0, 0)))
            await self.explaining()
            await asyncio.wait_for(asyncio.gather(*(self.client(session, number, 10) for number in range(8))), PATIENCE / 2)
            self.assertFalse(asking.done())
            self.go.touch()
            self.assertEqual(json.loads(await asking)["row"], 0)
            self.assertEqual((await health(session))["restarts"], 0)
            await self.nothing_is_left()
        self.end_and_check()

    async def test_a_certificate_that_takes_too_long_is_given_up(self):
        async with self.door.session() as session:
            await self.start(session, "--explain-patience", 0.3)
            self.assertEqual(json.loads(await self.why(session, line_of("sum", 0, 0), 503)), {"error": AWAY["late"], "code": "away"})
            self.assertIn("auditor explain: it took too long", self.folder.said())
            await self.client(session, 0, 5)
            await self.nothing_is_left()
        self.end_and_check()

    async def test_a_run_that_ends_or_says_something_else_is_told_of(self):
        for mode, cause, words in (("end", "other", "no certificate today"), ("texts", "replies", "isn't a line for each question")):
            os.environ["EXPLAIN"] = mode
            async with self.door.session() as session:
                self.door.start()
                await self.door.ready(session)
                self.assertEqual(json.loads(await self.why(session, line_of("sum", 0, 0), 503)), {"error": AWAY[cause], "code": "away"})
                self.assertIn(words, self.folder.said())
                self.assertEqual((await self.ask(session, ("count", 0, 9), line_of("count", 0, 9)))[0], 200)
            self.assertEqual(self.door.stop(), 0)
            await self.nothing_is_left()

    async def test_too_many_askers_are_turned_away(self):
        async with self.door.session() as session:
            await self.start(session, "--explain-patience", 10 * PATIENCE)
            asking = [asyncio.ensure_future(ask(session, line_of("sum", 0, number % 60), "/why")) for number in range(80)]
            await self.until(lambda: sum(one.done() for one in asking) == 16)
            self.go.touch()
            found = await asyncio.gather(*asking)
        self.assertEqual(sorted(status for status, _ in found), [200] * 64 + [503] * 16)
        self.assertEqual(sum(b"too many certificates are wanted" in body for _, body in found), 16)
        self.assertEqual(self.door.stop(), 0)
        await self.nothing_is_left()

    async def test_a_door_that_ends_tells_those_who_wait(self):
        """The one whose certificate is being made. The others may have come when the door was closed."""
        async with self.door.session() as session:
            await self.start(session, "--explain-patience", 10 * PATIENCE)
            first = asyncio.ensure_future(ask(session, line_of("sum", 0, 0), "/why"))
            await self.explaining()
            others = [asyncio.ensure_future(ask(session, line_of("sum", 0, number), "/why")) for number in (1, 2)]
            ended, told, *found = await asyncio.gather(asyncio.to_thread(self.door.stop), first, *others, return_exceptions=True)
        self.assertEqual((ended, told), (0, (503, json.dumps({"error": AWAY["closing"], "code": "away"}).encode())))
        for one in found:
            self.assertTrue(isinstance(one, (aiohttp.ClientError, OSError)) or one[0] == 503, one)
        await self.nothing_is_left()


class Without(unittest.IsolatedAsyncioTestCase):
    """A door behind sockets of which none is for `explain`."""

    async def test_a_door_without_the_program_says_so(self):
        folder = Folder(10)
        door = Door(folder, "--serve", folder.path / "nobody", "--public", folder.public).start()
        async with door.session() as session:
            await door.ready(session, "st")
            status, body = await ask(session, line_of("sum", 0, 5), "/why")
            self.assertEqual((status, json.loads(body)), (501, {"error": "this door doesn't run auditor explain, so it can't say why", "code": "unexplained"}))
        door.end()
        folder.remove()


if __name__ == "__main__":
    unittest.main()

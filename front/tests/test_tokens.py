"""Who asks: tokens with their limits, what is written of who asked what, and that without a file everybody may ask."""
import asyncio
import base64
import json
import os
import pathlib
import stat
import subprocess
import sys
import tempfile
import time
import unittest

import aiohttp

from browser import Browser
from case import DoorCase
from kit import FRONT, PATIENCE, ask, free_port, health, line_of

SCRIPT = FRONT / "tokens.py"


def run(file, *words):
    return subprocess.run([sys.executable, SCRIPT, "--file", file, *map(str, words)], capture_output=True, text=True)


def bearer(token):
    return {"Authorization": f"Bearer {token}"}


def login(name, token):
    return {"Authorization": "Basic " + base64.b64encode(f"{name}:{token}".encode()).decode()}


class TokenCase(DoorCase):
    def setUp(self):
        super().setUp()
        self.file = self.folder.path / "tokens.json"
        self.file.write_text("{}")

    def add(self, name, **limits):
        done = run(self.file, "add", name, *(word for what, count in limits.items() for word in (f"--{what}", count)))
        self.assertEqual(done.returncode, 0, done.stderr)
        return done.stdout.strip()

    def start(self, *words):
        self.door.words += ["--tokens", str(self.file), *map(str, words)]
        return self.door.start().session()


class Tokens(TokenCase):
    async def test_nobody_asks_without_a_token(self):
        ann, bob = self.add("ann"), self.add("bob")
        async with self.start() as session:
            await self.door.ready(session)                      # what watches the door needs none
            line = line_of("sum", 0, 99)
            for headers in ({}, bearer("x"), bearer(""), login("bob", ann), login("ann", "x"), {"Authorization": "Basic %%%"},
                            {"Authorization": f"Digest {ann}"}, {"Authorization": ann}):
                for path in ("/ask", "/would", "/why"):
                    status, body = await ask(session, line, path, **headers)
                    self.assertEqual((status, list(json.loads(body))), (401, ["error", "code"]), headers)
                for path in ("/", "/schema.json", "/table.csv", "/transcript.jsonl", "/report.jsonl", "/words.json", "/tables.json"):
                    async with session.get(path, headers=headers) as response:
                        self.assertEqual(response.status, 401, (path, headers))
                        self.assertIn("Basic", response.headers["WWW-Authenticate"])
            self.assertEqual((await health(session))["records"], 0)
            due = (200, b'{"sum":%d}\n' % self.folder.due("sum", 0, 99)["sum"])
            for headers in (bearer(ann), login("ann", ann), login("", bob), login("bob", bob)):
                self.assertEqual(await ask(session, line, **headers), due)
                async with session.get("/transcript.jsonl", headers=headers) as response:
                    self.assertEqual(response.status, 200)
        self.assertEqual(self.door.stop(), 0)

    async def test_a_token_that_is_given_or_taken_back_counts_soon(self):
        ann = self.add("ann")
        async with self.start() as session:
            await self.door.ready(session)
            self.assertEqual(run(self.file, "remove", "ann").returncode, 0)
            bob = self.add("bob")
            await self.until_status(session, bearer(ann), 401)
            await self.until_status(session, bearer(bob), 200)
            self.file.write_text("no object")                   # said, and changes nothing
            await asyncio.sleep(1.5)
            self.assertEqual((await ask(session, line_of("count", 0, 9), **bearer(bob)))[0], 200)
            self.assertIn("tokens: ", self.folder.said())
            self.file.unlink()
            await self.until_status(session, bearer(bob), 401)
        self.assertEqual(self.door.stop(), 0)

    async def until_status(self, session, headers, due):
        end = time.monotonic() + PATIENCE
        while (await ask(session, line_of("count", 0, 9), **headers))[0] != due:
            self.assertLess(time.monotonic(), end)
            await asyncio.sleep(0.1)

    async def test_without_a_file_everybody_may_ask(self):
        async with self.door.start().session() as session:
            await self.door.ready(session)
            for headers in ({}, bearer("x"), login("ann", "secret")):
                self.assertEqual((await ask(session, line_of("count", 0, 9), **headers))[0], 200)
        self.assertEqual(self.door.stop(), 0)

    async def test_a_wrong_file_is_said_and_no_door_starts(self):
        for text in ("[]", "{", '{"ann":{}}', '{"a b":{"sha256":"%s"}}' % ("0" * 64), '{"ann":{"sha256":"%s","bytes":-1}}' % ("0" * 64)):
            self.file.write_text(text)
            await self.start().close()
            await self.ends(1)
        self.file.unlink()
        self.door.start()
        await self.ends(1)


class Limits(TokenCase):
    async def test_new_answers_end_at_their_limit_and_nothing_else_counts(self):
        for what in ("answers", "records"):
            with self.subTest(what):
                token, other = self.add(f"ann-{what}", **{what: 3}), self.add(f"bob-{what}")
                low = 10 if what == "records" else 0
                async with self.start() as session:
                    await self.door.ready(session)
                    for high in (90, 120, 150):
                        self.assertEqual((await ask(session, line_of("sum", low, low), **bearer(token)))[1], b'{"denied":"unsafe"}\n')
                        self.assertIn(b"sum", (await ask(session, line_of("sum", low, high), **bearer(token)))[1])
                    status, body = await ask(session, line_of("sum", low, 180), **bearer(token))
                    self.assertEqual((status, "used up" in json.loads(body)["error"]), (429, True))
                    for high in (90, 120, 150):             # what was answered, and counts, cost nothing
                        self.assertEqual((await ask(session, line_of("sum", low, high), **bearer(token)))[0], 200)
                    self.assertEqual((await ask(session, line_of("count", 0, 9), **bearer(token)))[0], 200)
                    self.assertIn(b"sum", (await ask(session, line_of("sum", low, 180), **bearer(other)))[1])
                self.assertEqual(self.door.stop(), 0)

    async def test_askers_at_once_dont_get_past_it(self):
        token = self.add("ann", answers=5)
        async with self.start() as session:
            await self.door.ready(session)
            replies = await asyncio.gather(*(ask(session, line_of("sum", 0, 99 + 2 * high), **bearer(token)) for high in range(40)))
            self.assertEqual(sum(status == 200 for status, _ in replies), 5)
            self.assertEqual((await health(session))["records"], 5)
        self.assertEqual(self.door.stop(), 0)

    async def test_what_follows_from_earlier_answers_isnt_new(self):
        token = self.add("ann", new=2)
        follows = b'{"verdict":"released","new":false}\n'
        async with self.start() as session:
            await self.door.ready(session)

            async def said(low, high, path="/ask"):
                return await ask(session, line_of("sum", low, high), path, **bearer(token))
            self.assertEqual(await said(0, 90), (200, b'{"sum":%d}\n' % self.folder.due("sum", 0, 90)["sum"]))
            self.assertEqual(await said(3, 3), (200, b'{"denied":"unsafe"}\n'))
            self.assertEqual(await said(91, 150, "/would"), (200, b'{"verdict":"released"}\n'))
            self.assertEqual((await said(0, 150))[0], 200)
            # The third of two parts and their whole, what was answered, and an average.
            for line in (line_of("sum", 91, 150), line_of("sum", 0, 150), line_of("avg", 0, 90)):
                self.assertEqual(await ask(session, line, "/would", **bearer(token)), (200, follows))
                self.assertEqual((await ask(session, line, **bearer(token)))[0], 200)
            status, body = await said(0, 120)
            self.assertEqual((status, "tell something new" in json.loads(body)["error"]), (429, True))
            self.assertEqual((await health(session))["records"], 4)
        self.assertEqual(self.door.stop(), 0)
        self.assertEqual(json.loads(pathlib.Path(f"{self.file}.used").read_text())["used"]["ann"]["new"], 2)
        self.check_all()

    async def test_verdicts_and_bytes_end_at_their_limits(self):
        line = line_of("sum", 0, 99)
        verdicts, sent = self.add("ann", verdicts=4), self.add("bob", bytes=3 * len(line) + 1)
        async with self.start() as session:
            await self.door.ready(session)
            found = [(await ask(session, line, path, **bearer(verdicts)))[0] for path in ("/would", "/why", "/would", "/would", "/would", "/why")]
            self.assertEqual(found, [200] * 4 + [429] * 2)
            self.assertEqual((await ask(session, line, **bearer(verdicts)))[0], 200)
            self.assertEqual([(await ask(session, line, **bearer(sent)))[0] for _ in range(5)], [200] * 3 + [429] * 2)
            async with session.post("/ask", data=line, headers={"Content-Type": "application/json", **bearer(sent)}) as response:
                self.assertLessEqual(int(response.headers["Retry-After"]), 86_400)
        self.assertEqual(self.door.stop(), 0)

    async def test_what_was_used_outlives_a_start_and_a_day_ends(self):
        token = self.add("ann", answers=2, records=3)
        used = pathlib.Path(f"{self.file}.used")
        async with self.start() as session:
            await self.door.ready(session)
            for high in (90, 120):
                self.assertEqual((await ask(session, line_of("sum", 0, high), **bearer(token)))[0], 200)
            self.assertEqual(self.door.stop(), 0)
            self.assertEqual(json.loads(used.read_text())["used"]["ann"]["answers"], 2)
            self.assertEqual(stat.S_IMODE(used.stat().st_mode), 0o600)
            self.door.start()
            await self.door.ready(session)
            self.assertEqual((await ask(session, line_of("sum", 0, 150), **bearer(token)))[0], 429)
            self.assertEqual(self.door.stop(), 0)
            # Yesterday's answers don't count today, but for the records in all.
            used.write_text(json.dumps({**json.loads(used.read_text()), "day": "2001-01-01"}))
            self.door.start()
            await self.door.ready(session)
            self.assertEqual((await ask(session, line_of("sum", 0, 150), **bearer(token)))[0], 200)
            self.assertEqual((await ask(session, line_of("sum", 0, 170), **bearer(token)))[0], 429)
        self.assertEqual(self.door.stop(), 0)


class Written(TokenCase):
    async def test_who_asked_what_is_the_operators_alone_and_has_no_answer(self):
        log = self.folder.path / "asked.jsonl"
        ann, bob = self.add("ann"), self.add("bob", verdicts=0)
        lines = [(ann, "/ask", line_of("sum", 0, 99), "sum"), (bob, "/ask", line_of("sum", 0, 0), "denied unsafe"),
                 (ann, "/would", line_of("sum", 0, 98), "verdict unsafe"), (ann, "/ask", b'{"ask":"count","where":"("}', "refused where"),
                 (bob, "/would", line_of("sum", 0, 9), "error 429"), ("x", "/ask", line_of("sum", 0, 9), "error 401"),
                 (ann, "/ask", b"\xff", "refused line")]
        async with self.start("--log", log) as session:
            await self.door.ready(session)
            for token, path, line, _ in lines:
                await ask(session, line, path, **bearer(token))
        self.assertEqual(self.door.stop(), 0)
        self.assertEqual(stat.S_IMODE(os.stat(log).st_mode), 0o600)
        text = log.read_text()
        kept = [json.loads(line) for line in text.splitlines()]
        names = {ann: "ann", bob: "bob", "x": ""}
        self.assertEqual([(one["name"], one["path"], one["reply"]) for one in kept],
                         [(names[token], path, kind) for token, path, _, kind in lines])
        # A body is read once it is known who sends it.
        self.assertEqual([one["question"] for one in kept],
                         [line.decode("utf-8", "replace") if token != "x" else "" for token, _, line, _ in lines])
        self.assertNotIn(str(self.folder.due("sum", 0, 99)["sum"]), text)
        for one in kept:
            self.assertRegex(one["time"], r"20\d\d-\d\d-\d\dT\d\d:\d\d:\d\d\+00:00")

    async def test_nothing_is_written_if_nobody_wants_it(self):
        async with self.door.start().session() as session:
            await self.door.ready(session)
            await ask(session, line_of("sum", 0, 99))
        self.assertEqual(self.door.stop(), 0)
        found = {path.name for path in [*self.folder.path.iterdir(), *self.folder.public.iterdir()]} - {"door.sock", "tokens.json"}
        self.assertEqual(found, {"answers.journal", "door.err", "period.1", "public", "schema.json", "table.csv", "table.sha256", "transcript.jsonl",
                                 "waiting.jsonl"})

    async def test_a_proxy_behind_a_socket_says_whose_question_it_is(self):
        log = self.folder.path / "asked.jsonl"
        self.door.words += ["--log", str(log)]
        async with self.door.start().session() as session:
            await self.door.ready(session)
            await ask(session, line_of("count", 0, 9), **{"X-Remote-User": "ann", "X-Real-IP": "192.0.2.7"})
        self.assertEqual(self.door.stop(), 0)
        self.assertEqual(json.loads(log.read_text())["name"], "ann")

    async def test_nobody_else_is_believed(self):
        log, port = self.folder.path / "asked.jsonl", free_port()
        self.door.words[self.door.words.index("--listen") + 1] = f"127.0.0.1:{port}"
        self.door.words += ["--log", str(log)]
        self.door.start()
        async with aiohttp.ClientSession(f"http://127.0.0.1:{port}") as session:
            await self.door.ready(session)
            await ask(session, line_of("count", 0, 9), **{"X-Remote-User": "ann"})
            self.assertEqual(self.door.stop(), 0)
            self.door.words += ["--proxy", "127.0.0.1"]
            self.door.start()
            await self.door.ready(session)
            await ask(session, line_of("count", 0, 9), **{"X-Remote-User": "bob"})
        self.assertEqual(self.door.stop(), 0)
        self.assertEqual([json.loads(line)["name"] for line in log.read_text().splitlines()], ["", "bob"])


class Page(TokenCase):
    """A browser asks for name and token by itself, and sends both with all that the page fetches."""

    async def test_the_page_works_with_a_token(self):
        token, port = self.add("ann"), free_port()
        self.door.words[self.door.words.index("--listen") + 1] = f"127.0.0.1:{port}"
        await self.start().close()
        async with aiohttp.ClientSession(f"http://127.0.0.1:{port}") as session:
            await self.door.ready(session)
        text = await asyncio.to_thread(self.asked_on_the_page, f"127.0.0.1:{port}", f"ann:{token}")
        self.assertIn(f"{self.folder.due('sum', 0, 199)['sum']:,}", text)
        self.assertEqual(self.door.stop(), 0)

    def asked_on_the_page(self, place, login):
        """What the page says to the first question that it offers. The first address stands for what is typed when the browser asks."""
        browser = Browser()
        try:
            browser.driver.get(f"http://{login}@{place}/schema.json")
            browser.open(f"http://{place}")
            browser.click("#ask")
            browser.wait(lambda: browser.text("answer").partition("Waiting")[0])
            return browser.text("answer")
        finally:
            browser.close()


class Script(unittest.TestCase):
    def setUp(self):
        self.folder = tempfile.TemporaryDirectory()
        self.addCleanup(self.folder.cleanup)
        self.file = pathlib.Path(self.folder.name) / "tokens.json"

    def test_a_token_is_printed_once_and_only_its_sum_is_kept(self):
        tokens = [run(self.file, "add", name, "--answers", 7).stdout.strip() for name in ("ann", "bob@example.org")]
        self.assertEqual(len(set(tokens)), 2)
        text = self.file.read_text()
        for token in tokens:
            self.assertGreaterEqual(len(token), 32)
            self.assertNotIn(token, text)
        self.assertEqual(stat.S_IMODE(self.file.stat().st_mode), 0o600)
        self.assertEqual(run(self.file, "list").stdout, "ann answers=7\nbob@example.org answers=7\n")
        self.assertEqual(run(self.file, "remove", "ann").returncode, 0)
        self.assertEqual(run(self.file, "list").stdout, "bob@example.org answers=7\n")

    def test_what_cant_be_is_said_and_changes_nothing(self):
        run(self.file, "add", "ann")
        before = self.file.read_bytes()
        for words in (("add", "ann"), ("add", "a b"), ("add", ""), ("add", "bob", "--bytes", -1), ("remove", "bob"), ("add", "a" * 65)):
            done = run(self.file, *words)
            self.assertEqual((done.returncode, done.stdout), (1, ""), words)
            self.assertTrue(done.stderr.startswith("tokens: "), done.stderr)
        self.assertEqual(self.file.read_bytes(), before)


if __name__ == "__main__":
    unittest.main()

"""What somebody who means harm sends: paths, hosts, sites, bodies, smuggled requests, and one question under many names.

Start: AUDITOR=/path/of/the/program /usr/bin/python3 -m unittest -v test_attacks. What is tried against time, memory and places is in test_crowds and
test_long_transcript, what is tried at the proxy in test_two_doors, and what a changed number would tell in test_told.
"""
import asyncio
import contextlib
import json
import time
import unittest

from case import DoorCase
from kit import PATIENCE, ask, free_port, health, line_of

GOOD = line_of("count", 0, 9)
COUNTED = b'{"count":10}\n'
# Addresses that would lead out of the public files, or to files of the door's own. None is one.
PATHS = ("/../table.csv", "/%2e%2e/table.csv", "/..%2ftable.csv", "/..%5ctable.csv", "//etc/passwd", "/public/../../table.csv", "/table.csv%00.txt",
         "/answers.journal", "/waiting.jsonl", "/table.sha256", "/stopped.txt", "/transcript.jsonl/../waiting.jsonl", "/.git/config", "/%00", "/a/ask",
         "/page/basics.js", "/openapi.json/../door.py", "/words.json%20")
# Heads of a good question, each with the status that is due: what names another host or another site's page, or isn't JSON.
HEADS = (
    ({}, 200), ({"Host": "evil.example"}, 421), ({"Host": None}, 421), ({"Host": "a@127.0.0.1:{port}"}, 421),
    ({"Host": "127.0.0.1:{port}\r\nHost: evil.example"}, 400),
    ({"Sec-Fetch-Site": "cross-site"}, 403), ({"Sec-Fetch-Site": "same-site"}, 403), ({"Content-Type": "text/plain"}, 415),
    ({"Origin": "http://evil.example"}, 200), ({"X": "a\r\n b"}, 200), ({"X": "a\r\n Content-Length: 3"}, 200), ({"X": "a\nContent-Length: 3"}, 400),
    ({"X": "a\rContent-Length: 3"}, 400),
    ({"Content-Type": "application/x-www-form-urlencoded"}, 415), ({"Content-Encoding": "gzip"}, 415), ({"Expect": "100-continue"}, 200),
    ({"Expect": "something"}, 417),
    ({"Content-Length": "-1"}, 400), ({"Content-Length": "0x1d"}, 400), ({"Content-Length": "+29"}, 400), ({"Content-Length": "29, 29"}, 400),
    ({"Content-Length": "29\r\nContent-Length: 3"}, 400), ({"X": "a" * 20_000}, 400), ({"X": "a\0b"}, 400), ({f"X{number}": "a" for number in range(2000)}, 400))
BODIES = ((b"x" * 8193, 413), (b"x" * 8192, 200), (b"x" * 10_000_000, 413), (GOOD + b"\n" + GOOD, 400), (GOOD.replace(b",", b",\r"), 400), (b"", 400), (b"\0", 200),
          (b'{"ask":"count","where":"\xff"}', 200), (b"[" * 5000, 200))
CHUNK = b"%x\r\n" % len(GOOD) + GOOD + b"\r\n0\r\n\r\n"
# What two servers in a row may cut in different places: how a length is given, and the body.
SMUGGLED = (
    ({"Content-Length": "4", "Transfer-Encoding": "chunked"}, CHUNK), ({"Transfer-Encoding": "xchunked"}, CHUNK),
    ({"Transfer-Encoding": "chunked, identity"}, CHUNK), ({"Transfer-Encoding ": "chunked"}, CHUNK), ({"Transfer-Encoding": "chunked"}, b"1_d\r\n" + CHUNK[4:]))
NAMES = 200


class Hostile(DoorCase):
    """Raw requests to a door at an address; after each a good question has its answer."""

    def setUp(self):
        super().setUp()
        self.port = free_port()
        self.door.words[self.door.words.index("--listen") + 1] = f"127.0.0.1:{self.port}"

    async def begin(self):
        self.door.start()
        end = time.monotonic() + PATIENCE
        while time.monotonic() < end:
            with contextlib.suppress(OSError):
                if await self.post({}, GOOD) == (200, COUNTED):
                    return
            await asyncio.sleep(0.05)
        self.fail(self.folder.said())

    async def send(self, data):
        """Status and body of what comes back to some bytes."""
        reader, writer = await asyncio.open_connection("127.0.0.1", self.port)
        try:
            with contextlib.suppress(ConnectionError):
                writer.write(data)
                await writer.drain()
            got = await asyncio.wait_for(reader.read(), PATIENCE)
        except ConnectionError:
            got = b""
        writer.close()
        head, _, body = got.removeprefix(b"HTTP/1.1 100 Continue\r\n\r\n").partition(b"\r\n\r\n")
        self.head = head.lower()
        return int(head.split(b" ")[1]) if head else 0, body

    async def post(self, heads, body, address="/ask"):
        heads = {"Host": "127.0.0.1:{port}", "Content-Type": "application/json", "Content-Length": str(len(body)), "Connection": "close", **heads}
        lines = [f"{name}: {value}".replace("{port}", str(self.port)) for name, value in heads.items() if value is not None]
        return await self.send("\r\n".join([f"POST {address} HTTP/1.1", *lines, "", ""]).encode() + body)

    async def get(self, path, method="GET", host="127.0.0.1:{port}"):
        return await self.send(f"{method} {path} HTTP/1.1\r\nHost: {host}\r\nOrigin: http://evil.example\r\nConnection: close\r\n\r\n"
                               .replace("{port}", str(self.port)).encode())

    async def goes_on(self, what):
        self.assertEqual(await self.post({}, GOOD), (200, COUNTED), what)

    async def test_no_path_leads_anywhere_else(self):
        await self.begin()
        for path in PATHS:
            status, body = await self.get(path)
            self.assertEqual((status, json.loads(body).get("code")), (404, "address"), path)
            await self.goes_on(path)
        self.assertEqual((await self.get("http://evil.example/health"))[0], 421)
        self.assertEqual((await self.get("/health", host="evil.example"))[0], 421)
        self.assertEqual((await self.send(b"GET /health HTTP/1.0\r\n\r\n"))[0], 421)
        self.assertEqual((await self.get("/ask"))[0], 405)

    async def test_no_other_sites_page_may_read_a_reply(self):
        """A browser reads another site's reply, and sends JSON there, only if a head of the reply allows it."""
        await self.begin()
        status, body = await self.get("/ask", "OPTIONS")
        self.assertEqual((status, json.loads(body)["code"]), (405, "method"))
        self.assertNotIn(b"access-control", self.head)
        for heads in ({"Origin": "http://evil.example"}, {"Origin": "null"}):
            self.assertEqual(await self.post(heads, GOOD), (200, COUNTED))
            self.assertNotIn(b"access-control", self.head)
        for path in ("/health", "/transcript.jsonl", "/schema.json"):
            self.assertEqual((await self.get(path))[0], 200)
            self.assertNotIn(b"access-control", self.head)

    async def test_lines_that_end_with_a_line_feed_alone_are_one_request(self):
        await self.begin()
        lines = ["POST /ask HTTP/1.1", f"Host: 127.0.0.1:{self.port}", "Content-Type: application/json", f"Content-Length: {len(GOOD)}", "Connection: close", "", ""]
        self.assertEqual(await self.send("\n".join(lines).encode() + GOOD), (200, COUNTED))
        await self.goes_on("line feeds")

    async def test_no_head_gets_past_the_guard(self):
        await self.begin()
        for heads, due in HEADS:
            status, body = await self.post(heads, GOOD)
            self.assertEqual(status, due, list(heads.items())[:3])
            if status == 200:
                self.assertEqual(body, COUNTED)
            await self.goes_on(heads)

    async def test_no_body_stops_the_door(self):
        await self.begin()
        for body, due in BODIES:
            status, said = await self.post({}, body)
            self.assertIn(status, (due, 0) if due == 413 else (due,), body[:40])     # who sends on after 413 may find the connection reset
            self.assertNotIn(b"count", said)
            await self.goes_on(body[:40])

    async def test_no_request_hides_in_another(self):
        await self.begin()
        for heads, body in SMUGGLED:
            given = {"Content-Length": None, **heads}
            self.assertEqual((await self.post(given, body))[0], 400, heads)
            await self.goes_on(heads)
        self.assertEqual((await health_of(self))["restarts"], 0)

    async def test_a_body_that_is_promised_and_never_comes_holds_nobody_up(self):
        await self.begin()
        reader, writer = await asyncio.open_connection("127.0.0.1", self.port)
        writer.write(f"POST /ask HTTP/1.1\r\nHost: 127.0.0.1:{self.port}\r\nContent-Type: application/json\r\nContent-Length: {10**18}\r\n\r\n{{".encode())
        await self.goes_on("a promised body")
        self.assertIn(await asyncio.wait_for(reader.readline(), PATIENCE), (b"HTTP/1.1 408 Request Timeout\r\n", b"HTTP/1.1 413 Request Entity Too Large\r\n"))
        writer.close()


async def health_of(test):
    return json.loads((await test.get("/health"))[1])


class Greedy(DoorCase):
    async def test_one_question_under_many_names_makes_one_record(self):
        """As one asker filled the history: 64 connections, another name with each question."""
        async with self.door.start().session() as session:
            await self.door.ready(session)
            lines = [json.dumps({"user": str(number), **json.loads(line_of("sum", 0, 99))}).encode() for number in range(NAMES)]
            found = await asyncio.gather(*(ask(session, line) for line in lines))
            self.assertEqual({status for status, _ in found}, {200})
            self.assertEqual(len({body for _, body in found}), 1)
            self.assertEqual((await health(session))["records"], 1)
            self.assertEqual((await ask(session, line_of("max", 0, 99)))[0], 200)
        self.assertEqual(self.door.stop(), 0)
        self.assertEqual(len(self.folder.journal()), 2)


if __name__ == "__main__":
    unittest.main()

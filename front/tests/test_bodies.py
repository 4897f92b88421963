"""Hostile bodies and streams, and that the door changes no line."""
import asyncio
import contextlib
import gzip
import json
import random
import subprocess
import tempfile
import time
import unittest

from case import DoorCase
from kit import AUDITOR, PATIENCE, SEED, ask, free_port, health, line_of

GOOD = line_of("count", 0, 9)
LINE = b'{"refused":"line"}\n'
LONG = b'{"ask":"count","where":"' + b" " * 8163 + b'all"}'

# Body, status, and the program's reply if the program was asked.
BODIES = [
    (b"", 400, None),
    (b"\n", 400, None),
    (b"\r", 400, None),
    (b"\r\n", 400, None),
    (b"\n\n", 400, None),
    (GOOD + b"\n" + GOOD, 400, None),
    (GOOD + b"\n" + GOOD + b"\n", 400, None),
    (GOOD + b"\n\n", 400, None),
    (GOOD + b"\r", 400, None),
    (GOOD[:9] + b"\r" + GOOD[9:], 400, None),
    (b"\n" + GOOD, 400, None),
    (GOOD + b"\n", 200, b'{"count":10}\n'),
    (GOOD + b"\r\n", 200, b'{"count":10}\n'),
    (b" " * 100, 200, LINE),
    (b"\0" * 40, 200, LINE),
    (b"\xff\xfe" + GOOD, 200, LINE),
    (b"\xef\xbb\xbf" + GOOD, 200, LINE),
    (b"[" * 8192, 200, LINE),
    (LONG, 200, b'{"count":200}\n'),
    (LONG + b"\r\n", 200, b'{"count":200}\n'),
    (LONG + b" ", 413, None),
    (b"x" * 100_000, 413, None),
    ('{"ask":"count","where":"team = \'\u2028\u0085\'"}'.encode(), 200, b'{"count":0}\n'),
]


class Bodies(DoorCase):
    async def test_hostile_bodies_and_a_good_question_after_each(self):
        self.assertEqual(len(LONG), 8192)
        self.assertEqual(len(BODIES), 23)
        self.door.start()
        async with self.door.session() as session:
            await self.door.ready(session)
            for body, status, reply in BODIES:
                got = await ask(session, body)
                self.assertEqual(got[0], status, body[:60])
                if reply:
                    self.assertEqual(got[1], reply, body[:60])
                else:
                    self.assertEqual(list(json.loads(got[1])), ["error", "code"], body[:60])
                self.assertEqual(await ask(session, GOOD), (200, b'{"count":10}\n'), body[:60])
            self.assertEqual((await health(session))["restarts"], 0)

    async def test_other_content_is_turned_away(self):
        self.door.start()
        async with self.door.session() as session:
            await self.door.ready(session)
            for kind in ("text/plain", "application/x-www-form-urlencoded", "multipart/form-data; boundary=x"):
                status, body = await ask(session, GOOD, **{"Content-Type": kind})
                self.assertEqual(status, 415, body)
            packed = gzip.compress(GOOD)
            self.assertEqual((await ask(session, packed, **{"Content-Encoding": "gzip"}))[0], 415)
            self.assertEqual((await ask(session, GOOD, **{"Content-Type": "application/json; charset=utf-8"}))[0], 200)
            for path in ("/ask", "/would"):
                async with session.get(path) as response:
                    self.assertEqual(response.status, 405)
                    self.assertIn("error", await response.json())
            for path in ("/nothing", "/public/table.csv", "/answers.journal", "/waiting.jsonl", "/table.sha256"):
                async with session.get(path) as response:
                    self.assertEqual(response.status, 404, path)

    async def test_the_door_changes_no_line(self):
        """600 lines, with bytes changed at random: the replies are those of `serve` on the same lines."""
        chance, lines = random.Random(SEED), []
        while len(lines) < 600:
            line = bytearray(self.folder.draw(chance)[1])
            for _ in range(chance.choice([0, 0, 1, 1, 2, 6])):
                line[chance.randrange(len(line))] = chance.randrange(256)
            if chance.random() < 0.1:
                line = bytearray(chance.randbytes(chance.randrange(1, 90)))
            if not {10, 13} & set(line):
                lines.append(bytes(line))
        self.door.start()
        async with self.door.session() as session:
            await self.door.ready(session)
            got = [await ask(session, line) for line in lines]
        self.assertEqual({status for status, _ in got}, {200})
        with tempfile.TemporaryDirectory() as folder:
            subprocess.run(["cp", self.folder.path / "schema.json", self.folder.path / "table.csv", folder], check=True)
            subprocess.run([AUDITOR, "init"], cwd=folder, check=True)
            due = subprocess.run([AUDITOR, "serve"], cwd=folder, input=b"\n".join(lines) + b"\n", capture_output=True).stdout
        self.assertEqual(b"".join(body for _, body in got), due)


class Streams(DoorCase):
    def setUp(self):
        super().setUp()
        self.port = free_port()
        self.door.words[self.door.words.index("--listen") + 1] = f"127.0.0.1:{self.port}"

    async def send(self, *pieces, wait=PATIENCE):
        """What comes back to some bytes, until the door closes or nothing more comes for so many seconds."""
        reader, writer = await asyncio.open_connection("127.0.0.1", self.port)
        got = b""
        try:
            for piece in pieces:
                writer.write(piece)
                await writer.drain()
            while more := await asyncio.wait_for(reader.read(65536), wait):
                got += more
        except (asyncio.TimeoutError, ConnectionError):
            pass
        writer.close()
        return got

    def request(self, body, host=None, length=None, last=False):
        head = (f"POST /ask HTTP/1.1\r\nHost: {host or f'127.0.0.1:{self.port}'}\r\nContent-Type: application/json\r\n"
                f"Content-Length: {len(body) if length is None else length}\r\n{'Connection: close' if last else 'X: y'}\r\n\r\n")
        return head.encode() + body

    async def count(self, **changes):
        """What a good question gets, the last of its stream."""
        return await self.send(self.request(GOOD, last=True, **changes))

    async def until_serving(self):
        end = time.monotonic() + PATIENCE
        while time.monotonic() < end:
            with contextlib.suppress(OSError):
                if b'{"count":10}' in await self.count():
                    return
            await asyncio.sleep(0.05)
        self.fail(self.folder.said())

    def broken(self, chance):
        """One of the ways in which a stream goes wrong."""
        good = self.request(GOOD)
        return chance.choice([
            lambda: good[:chance.randrange(1, len(good))],
            lambda: good + good[:chance.randrange(1, len(good))],
            lambda: good * chance.randrange(2, 6),
            lambda: bytes(byte if chance.random() > 0.03 else chance.randrange(256) for byte in good),
            lambda: chance.randbytes(chance.randrange(1, 400)),
            lambda: self.request(GOOD, length=chance.randrange(0, 300)),
            lambda: self.request(GOOD, length=-1),
            lambda: good.replace(b"Content-Length: ", b"Content-Length: 5\r\nContent-Length: "),
            lambda: good.replace(b"Content-Length", b"Transfer-Encoding: chunked\r\nContent-Length"),
            lambda: good.replace(b"\r\n", b"\n"),
            lambda: good.replace(b"POST", b"P" * 9000),
            lambda: good.replace(b"Host", b"X: " + b"y" * 20_000 + b"\r\nHost"),
        ])()

    async def test_hostile_streams(self):
        """300 streams of broken, doubled and pipelined requests: the door goes on, and the next asker gets his reply."""
        self.door.start()
        await self.until_serving()
        chance = random.Random(SEED)
        for _ in range(30):
            await asyncio.gather(*(self.send(self.broken(chance), wait=0.05) for _ in range(10)))
            self.assertIn(b'{"count":10}', await self.count())
        self.assertIsNone(self.door.process.poll())
        self.assertEqual(self.folder.said().count("\n"), 1, self.folder.said()[:2000])     # where it listens

    async def test_a_client_that_waits_to_be_told_to_go_on_is_told(self):
        self.door.start()
        await self.until_serving()
        head, body = self.request(GOOD, last=True).replace(b"Host:", b"Expect: 100-continue\r\nHost:").split(b"\r\n\r\n")
        reader, writer = await asyncio.open_connection("127.0.0.1", self.port)
        writer.write(head + b"\r\n\r\n")
        self.assertEqual(await asyncio.wait_for(reader.readline(), PATIENCE), b"HTTP/1.1 100 Continue\r\n")
        writer.write(body)
        self.assertIn(b'{"count":10}', await asyncio.wait_for(reader.read(), PATIENCE))
        writer.close()

    async def test_no_address_leads_out_of_the_public_files(self):
        self.door.start()
        await self.until_serving()
        secret = (self.folder.path / "table.csv").read_bytes()
        for path in ("/../table.csv", "/%2e%2e/table.csv", "//table.csv", "/./../answers.journal", "/table.csv/../../table.csv"):
            got = await self.send(f"GET {path} HTTP/1.1\r\nHost: 127.0.0.1:{self.port}\r\nConnection: close\r\n\r\n".encode())
            self.assertTrue(got.startswith(b"HTTP/1.1 "), path)
            self.assertNotIn(secret[:200], got, path)
            self.assertNotIn(b"SQAJRNL", got, path)

    async def test_requests_in_a_row_get_their_replies_in_order(self):
        self.door.start()
        await self.until_serving()
        lines = [line_of("count", 0, high) for high in range(50)]
        got = await self.send(b"".join(self.request(line, last=line == lines[-1]) for line in lines))
        bodies = [part.split(b"\r\n\r\n", 1)[1] for part in got.split(b"HTTP/1.1 200 OK\r\n")[1:]]
        self.assertEqual(bodies, [b'{"count":%d}\n' % (high + 1) for high in range(50)])

    async def test_other_hosts_and_other_sites_are_turned_away(self):
        self.door.start()
        await self.until_serving()
        self.assertIn(b" 421 ", await self.count(host="evil.example"))
        self.assertIn(b" 421 ", await self.count(host=f"127.0.0.1:{self.port}.evil.example"))
        self.assertIn(b" 200 ", await self.count(host=f"localhost:{self.port}"))
        for site, status in (("cross-site", b" 403 "), ("same-site", b" 403 "), ("same-origin", b" 200 "), ("none", b" 200 ")):
            text = self.request(GOOD, last=True).replace(b"Host:", b"Sec-Fetch-Site: %s\r\nHost:" % site.encode())
            self.assertIn(status, await self.send(text), site)
        link = f"GET / HTTP/1.1\r\nHost: 127.0.0.1:{self.port}\r\nSec-Fetch-Site: cross-site\r\nConnection: close\r\n\r\n".encode()
        self.assertIn(b" 200 ", await self.send(link))


if __name__ == "__main__":
    unittest.main()

"""Time and number: slow heads, more connections than there may be, a system without descriptors, and one asker who wants all places."""
import asyncio
import contextlib
import json
import os
import pathlib
import resource
import signal
import subprocess
import sys
import time
import unittest

import aiohttp

from case import DoorCase
from kit import AUDITOR, FRONT, HERE, PATIENCE, Door, ask, free_port, health, line_of

HEAD = b"POST /ask HTTP/1.1\r\nHost: door\r\nX: "
COUNT = line_of("count", 0, 9)


class Crowds(DoorCase):
    async def open(self):
        return await asyncio.open_unix_connection(self.door.socket)

    async def begin(self, *words):
        self.door.words += [str(word) for word in words]
        session = self.door.start().session()
        await self.door.ready(session)
        return session

    async def closes(self, reader):
        """Waits until the door closes a connection without a word."""
        with contextlib.suppress(ConnectionError):
            self.assertEqual(await asyncio.wait_for(reader.read(), PATIENCE), b"")

    async def slowly(self, writer):
        """Goes on sending a head, a byte at a time, as long as somebody takes it."""
        with contextlib.suppress(ConnectionError):
            while not writer.is_closing():
                writer.write(b"a")
                await writer.drain()
                await asyncio.sleep(0.1)

    async def test_a_head_that_isnt_whole_in_time_is_closed(self):
        async with await self.begin("--head-patience", 1.5) as session:
            for first in (HEAD, b"", b"GET /"):
                reader, writer = await self.open()
                writer.write(first)
                began = time.monotonic()
                sending = asyncio.ensure_future(self.slowly(writer) if first else asyncio.sleep(0))
                await self.closes(reader)
                self.assertGreaterEqual(time.monotonic() - began, 1.4)
                sending.cancel()
            # A second head on a connection has the same time, and a body has its own.
            reader, writer = await self.open()
            request = b"POST /ask HTTP/1.1\r\nHost: door\r\nContent-Type: application/json\r\nContent-Length: %d\r\n\r\n" % len(COUNT)
            writer.write(request + COUNT[:9])
            await asyncio.sleep(2)
            writer.write(COUNT[9:])
            self.assertIn(b"200 OK", await asyncio.wait_for(reader.readuntil(b"}\n"), PATIENCE))
            writer.write(HEAD)
            sending = asyncio.ensure_future(self.slowly(writer))
            await self.closes(reader)
            sending.cancel()
            # One that asks nothing just then stays for a while.
            self.assertEqual((await ask(session, COUNT))[0], 200)
        self.assertEqual(self.door.stop(), 0)

    async def test_by_itself_the_door_gives_a_head_ten_seconds(self):
        async with await self.begin():
            reader, writer = await self.open()
            writer.write(HEAD)
            began = time.monotonic()
            sending = asyncio.ensure_future(self.slowly(writer))
            await asyncio.wait_for(self.closes(reader), 30)
            self.assertGreaterEqual(time.monotonic() - began, 9.9)
            sending.cancel()
        self.assertEqual(self.door.stop(), 0)

    async def test_slow_connections_keep_nobody_out(self):
        """More of them than there may be, each of which would be good for a long time yet."""
        async with await self.begin("--connections", 40, "--head-patience", 10 * PATIENCE) as session:
            slow = [await self.open() for _ in range(120)]
            for _, writer in slow:
                writer.write(HEAD)
            for _ in range(30):
                async with self.door.session() as other:        # a connection of its own
                    self.assertEqual((await ask(other, COUNT))[0], 200)
            self.assertEqual((await ask(session, COUNT))[0], 200)
            files = len(list(pathlib.Path(f"/proc/{self.door.process.pid}/fd").iterdir()))
            self.assertLess(files, 40 + 40)
            for _, writer in slow:
                writer.close()
        self.assertEqual(self.door.stop(), 0)

    async def test_those_who_wait_for_a_reply_arent_closed_for_others(self):
        async with await self.begin("--connections", 40, "--head-patience", 10 * PATIENCE) as session:
            self.door.signal_programs(signal.SIGSTOP)
            asking = [asyncio.ensure_future(ask(session, line_of("count", 0, high))) for high in range(30)]
            await asyncio.sleep(1)
            slow = [await self.open() for _ in range(100)]
            await asyncio.sleep(1)
            self.door.signal_programs(signal.SIGCONT)
            self.assertEqual([status for status, _ in await asyncio.gather(*asking)], [200] * 30)
            for _, writer in slow:
                writer.close()
        self.assertEqual(self.door.stop(), 0)

    async def test_a_system_without_descriptors_is_said_in_a_line(self):
        async with await self.begin() as session:
            number = self.door.process.pid
            files = len(list(pathlib.Path(f"/proc/{number}/fd").iterdir()))
            resource.prlimit(number, resource.RLIMIT_NOFILE, (files + 8, 8192))
            held = []
            for _ in range(200):
                with contextlib.suppress(OSError):
                    held.append(await asyncio.wait_for(self.open(), 5))
            await asyncio.sleep(3)
            said = self.folder.said()
            self.assertIn("connections: Too many open files", said)
            self.assertNotIn("Traceback", said)
            self.assertLess(len(said), 2000)
            for _, writer in held:
                writer.close()
            resource.prlimit(number, resource.RLIMIT_NOFILE, (4096, 8192))
            await self.door.ready(session)
            self.assertEqual((await ask(session, COUNT))[0], 200)
        self.assertEqual(self.door.stop(), 0)


class Shares(DoorCase):
    """One asker wants all places for verdicts, and for certificates."""

    def make_door(self):
        os.environ["AUDITOR"] = AUDITOR
        return Door(self.folder, auditor=str(HERE / "slow_simulate.py"))

    async def greedy(self, session, path, who, stop):
        while not stop.is_set():
            await ask(session, line_of("sum", 0, 99), path, **who)

    async def test_another_gets_a_verdict_and_a_reason(self):
        port = free_port()
        self.door.words[self.door.words.index("--listen") + 1] = f"127.0.0.1:{port}"
        self.door.words += ["--proxy", "127.0.0.1"]
        self.door.start()
        async with aiohttp.ClientSession(f"http://127.0.0.1:{port}", connector=aiohttp.TCPConnector(limit=0)) as session:
            await self.door.ready(session)
            for path, many in (("/would", 24), ("/why", 80)):
                stop = asyncio.Event()
                flood = [asyncio.ensure_future(self.greedy(session, path, {"X-Real-IP": "192.0.2.1"}, stop)) for _ in range(many)]
                await asyncio.sleep(1)
                found = [(await ask(session, line_of("sum", 0, 90 + number), path, **{"X-Real-IP": "192.0.2.2"}))[0] for number in range(10)]
                asked = [await ask(session, line_of("sum", 0, 150 + many), **{"X-Real-IP": "192.0.2.2"})]
                stop.set()
                await asyncio.gather(*flood)
                self.assertEqual(found, [200] * 10, path)
                self.assertEqual(asked, [(200, json.dumps(self.folder.due("sum", 0, 150 + many), separators=(",", ":")).encode() + b"\n")], path)
            self.assertEqual((await health(session))["restarts"], 0)
        self.assertEqual(self.door.stop(), 0)

    async def test_another_token_gets_a_verdict_and_a_reason(self):
        file = self.folder.path / "tokens.json"
        tokens = [subprocess.run([sys.executable, FRONT / "tokens.py", "--file", file, "add", name], check=True, capture_output=True, text=True)
                  .stdout.strip() for name in ("ann", "bob")]
        ann, bob = ({"Authorization": f"Bearer {token}"} for token in tokens)
        self.door.words += ["--tokens", str(file)]
        async with self.door.start().session() as session:
            await self.door.ready(session)
            for path, many in (("/would", 24), ("/why", 80)):
                stop = asyncio.Event()
                flood = [asyncio.ensure_future(self.greedy(session, path, ann, stop)) for _ in range(many)]
                await asyncio.sleep(1)
                found = [(await ask(session, line_of("sum", 0, 90 + number), path, **bob))[0] for number in range(4)]
                stop.set()
                await asyncio.gather(*flood)
                self.assertEqual(found, [200] * 4, path)
        self.assertEqual(self.door.stop(), 0)

    async def test_whom_nothing_tells_apart_has_all_places(self):
        async with self.door.start().session() as session:
            await self.door.ready(session)
            found = await asyncio.gather(*(ask(session, line_of("sum", 0, 90 + number), "/would") for number in range(16)))
            self.assertEqual([status for status, _ in found], [200] * 16)
            self.assertEqual({json.loads(body)["verdict"] for _, body in found}, {"released"})
        self.assertEqual(self.door.stop(), 0)


if __name__ == "__main__":
    unittest.main()

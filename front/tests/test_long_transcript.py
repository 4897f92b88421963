"""The transcript is bounded: no denial is written down twice in a row, none past a length, and a long one stops nothing."""
import asyncio
import json
import pathlib
import signal
import sys
import tempfile
import threading
import time
import unittest

from case import DoorCase
from kit import FRONT, ask, health, line_of
from test_power import FAST

sys.path.insert(0, str(FRONT))
from doorway.transcript import Transcript, pairs_of  # noqa: E402

MILLION = 1_000_000
REPEATS = 40
MEBIBYTES = 1024                    # KiB in one
SIMULATED = 2**30                   # bytes that `simulate` takes
AT_ONCE = 128                       # pairs that are written at a time


def denied(number=0, user=None):
    """The sum of one person's salary, with some user."""
    line = json.loads(line_of("sum", number, number))
    return json.dumps(line if user is None else {"user": user, **line}).encode()


class LongTranscript(DoorCase):
    @property
    def path(self):
        return self.folder.public / "transcript.jsonl"

    async def test_a_denial_that_was_the_last_reply_isnt_written_again(self):
        async with self.door.start().session() as session:
            await self.door.ready(session)
            await self.ask(session, ("sum", 0, 199), line_of("sum", 0, 199))
            await self.ask(session, ("sum", 0, 0), line_of("sum", 0, 0))
            size = self.path.stat().st_size
            for number in range(REPEATS):
                for line in (denied(user=f"{number} " + "x" * 7000), denied() + b" " * number, line_of("sum", -number, 0)):
                    self.assertEqual(await ask(session, line), (200, b'{"denied":"unsafe"}\n'))
            self.assertEqual(self.path.stat().st_size, size)
            said = await health(session)
            self.assertEqual((said["transcript"], said["unwritten"]), (size, 0))
            # Another question is, and so is the first one after the next start as little as before.
            await self.ask(session, ("sum", 1, 1), line_of("sum", 1, 1))
            size = self.path.stat().st_size
            self.assertEqual(self.door.stop(), 0)
            self.door.start()
            await self.door.ready(session)
            await self.ask(session, ("sum", 0, 0), line_of("sum", 0, 0))
            self.assertEqual(self.path.stat().st_size, size)
        self.end_and_check()

    async def test_no_user_is_kept(self):
        async with self.door.start().session() as session:
            await self.door.ready(session)
            for line in (denied(user="ann"), json.dumps({"user": "bob", **json.loads(line_of("sum", 3, 99))}).encode()):
                self.assertEqual((await ask(session, line))[0], 200)
        self.assertEqual(self.door.stop(), 0)
        self.assertEqual([json.loads(line) for line, _ in self.folder.transcript()],
                         [json.loads(line_of("sum", 0, 0)), json.loads(line_of("sum", 3, 99))])
        self.check_all()

    async def test_past_a_length_denials_are_told_and_not_written(self):
        self.door.words += ["--denials-up-to", "1500"]
        async with self.door.start().session() as session:
            await self.door.ready(session)
            for number in range(40):
                self.assertEqual(await ask(session, denied(number)), (200, b'{"denied":"unsafe"}\n'))
            size = self.path.stat().st_size
            self.assertLess(size, 1700)
            written = len(self.folder.transcript())
            self.assertEqual((await health(session))["unwritten"], 40 - written)
            # Answers are written, and what was asked when the program is killed is asked again.
            await self.ask(session, ("sum", 0, 99), line_of("sum", 0, 99))
            self.door.kill_programs()
            self.assertEqual(await ask(session, denied(60)), (200, b'{"denied":"unsafe"}\n'))
            await self.ask(session, ("sum", 0, 149), line_of("sum", 0, 149))
            self.assertEqual(len(self.folder.transcript()), written + 2)
        self.end_and_check()

    async def test_a_million_denials_stop_nothing(self):
        """In a transcript as a door wrote it that kept each one: no verdict and no way back goes through them."""
        pair = line_of("sum", 7, 7) + b'\n{"denied":"unsafe"}\n'
        self.path.write_bytes(pair * MILLION)
        async with self.door.start().session() as session:
            await self.door.ready(session)
            self.assertEqual((await health(session))["transcript"], MILLION * len(pair))
            await self.ask(session, ("sum", 0, 199), line_of("sum", 0, 199))
            took = []
            for number in range(5):
                began = time.monotonic()
                self.assertEqual(await ask(session, line_of("sum", 0, 100 + number), "/would"), (200, b'{"verdict":"released"}\n'))
                took.append(time.monotonic() - began)
            self.assertLess(min(took), 1)
            self.assertEqual(await ask(session, line_of("sum", 1, 199), "/would"), (200, b'{"verdict":"unsafe"}\n'))
            self.door.kill_programs()
            await self.ask(session, ("sum", 0, 99), line_of("sum", 0, 99))
            memory = pathlib.Path(f"/proc/{self.door.process.pid}/status").read_text()
            self.assertLess(int(memory.split("VmHWM:")[1].split()[0]), 100 * MEBIBYTES)
        self.assertEqual(self.door.stop(), 0)

    async def test_more_denials_than_simulate_takes_stop_nothing(self):
        """In a transcript as a door wrote it that kept the user of each: verdicts go on, and the way back after a kill goes on."""
        pairs = (denied(7, user="x" * 8000) + b'\n{"denied":"unsafe"}\n') * AT_ONCE
        with open(self.path, "wb") as file:
            for _ in range(SIMULATED // len(pairs) + 1):
                file.write(pairs)
        async with self.door.start().session() as session:
            await self.door.ready(session)
            self.assertGreater((await health(session))["transcript"], SIMULATED)
            await self.ask(session, ("sum", 0, 199), line_of("sum", 0, 199))
            self.assertEqual(await ask(session, line_of("sum", 0, 100), "/would"), (200, b'{"verdict":"released"}\n'))
            self.door.signal_programs(signal.SIGSTOP)
            asking = asyncio.ensure_future(ask(session, line_of("sum", 0, 99)))
            await self.until_health(session, "waiting")
            self.door.kill_programs()
            status, body = await asking
            self.assertEqual((status, json.loads(body)), (200, self.folder.due("sum", 0, 99)))
            self.assertEqual((await health(session))["restarts"], 1)
        self.assertEqual(self.door.stop(), 0)


class Beside(unittest.TestCase):
    def test_a_reader_beside_the_writer_finds_each_answer_once(self):
        """As a run of `simulate` is fed while answers are written in another thread."""
        pairs = [(b"q%d" % number, b'{"sum":%d}' % number if number % 3 else b'{"denied":"unsafe"}') for number in range(5000)]
        before = sys.getswitchinterval()
        self.addCleanup(sys.setswitchinterval, before)
        sys.setswitchinterval(1e-6)
        with tempfile.TemporaryDirectory(dir=FAST) as folder:
            transcript = Transcript(folder)
            writing = threading.Thread(target=lambda: [transcript.add([pair]) for pair in pairs])
            writing.start()
            found, fed, last = [], 0, False
            while not last:
                last = not writing.is_alive()
                size = transcript.size
                found += pairs_of(transcript.released(fed, size))
                fed = size
            transcript.close()
        self.assertEqual(found, [pair for pair in pairs if b"sum" in pair[1]])


if __name__ == "__main__":
    unittest.main()

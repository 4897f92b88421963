"""`auditor simulate` in the folder of the public columns: what would be decided, without a secret and without a record.

A verdict says what the program would do now, by the answers alone: no denial changes a later decision, so none is fed. It doesn't
depend on the answer.
"""
import asyncio
import contextlib

from .runs import Ended, ended_by

DISAGREES = 14                      # the code with which `simulate` ends at a reply that wasn't due
IDLE = 60                           # seconds that a run stays for the next question
RELEASED = b'{"verdict":"released"}'
FOLLOWS = b'{"verdict":"released","new":false}'       # the answer follows from earlier ones: it tells nothing new
DENIALS = {b'{"verdict":"unsafe"}': b'{"denied":"unsafe"}', b'{"verdict":"wide"}': b'{"denied":"wide"}'}


class Simulation:
    """One run of `simulate`, fed with answers and then with questions. `gap` once it says nothing any more."""

    def __init__(self, auditor, public):
        self.auditor, self.public = auditor, public
        self.process, self.gap = None, False

    async def __aenter__(self):
        await self.start()
        return self

    async def __aexit__(self, *_):
        self.kill()
        await self.process.wait()

    async def start(self):
        self.process = await asyncio.create_subprocess_exec(
            self.auditor, "simulate", cwd=self.public, stdin=asyncio.subprocess.PIPE,
            stdout=asyncio.subprocess.PIPE, stderr=asyncio.subprocess.PIPE)

    def kill(self):
        if self.process and self.process.returncode is None:
            with contextlib.suppress(ProcessLookupError):
                self.process.kill()

    async def read(self, pieces):
        """Feeds pairs, in pieces that may end anywhere. It says a verdict for each, which is read as it comes: the pipes are small."""
        lines = verdicts = 0
        for piece in pieces:
            self._write(piece)
            lines += piece.count(b"\n")
            while verdicts < lines // 2 and await self._line():
                verdicts += 1
            if self.gap:
                return

    async def verdict(self, line):
        """The verdict on a question, or None if the transcript has a gap."""
        if not self.gap:
            self._write(line + b"\n")
        return None if self.gap else await self._line()

    def reply(self, reply):
        """The reply to the last question, which joins what later verdicts go by."""
        if not self.gap:
            self._write(reply + b"\n")

    def _write(self, text):
        with contextlib.suppress(OSError, RuntimeError):        # why it is gone, the next verdict says
            self.process.stdin.write(text)

    async def _line(self):
        said = (await self.process.stdout.readline()).strip()
        if said:
            return said
        complaint = await self.process.stderr.read()
        if await self.process.wait() != DISAGREES:
            raise ended_by(complaint, self.process.returncode)
        self.gap = True
        return None


class Verdicts:
    """Verdicts on questions that aren't asked, one after the other, from a run that is fed with the answers as they come.

    A run that says that a question would be answered waits for the answer, so it can't go on. The next one is fed at once.
    """

    def __init__(self, auditor, period, transcript):
        self.auditor, self.period, self.transcript = auditor, period, transcript
        self.one = asyncio.Lock()
        self.run, self.fed, self.next, self.idle = None, 0, None, None

    async def on(self, line):
        """The verdict on a question after what was answered so far."""
        self.period.need_simulating()
        async with self.one:
            try:
                await self._feed()
                said = await self.run.verdict(line)
                if said is None:
                    raise Ended("the transcript has a gap", str(DISAGREES))
            except BaseException:
                self.drop()
                raise
            if said in DENIALS:
                self.run.reply(DENIALS[said])
            else:
                self.drop()
                self.next = asyncio.ensure_future(self._feed_ahead())
            self._rest()
            return said

    async def _feed(self):
        """A run that has all answers."""
        if self.run is None:
            self.run, self.fed = Simulation(self.auditor, self.period.simulating), 0
            await self.run.start()
        size = self.transcript.size
        await self.run.read(self.transcript.released(self.fed, size))
        self.fed = size

    async def _feed_ahead(self):
        async with self.one:
            try:
                await self._feed()
            except (Ended, OSError):
                self.drop()             # the next asker is told
            except BaseException:
                self.drop()
                raise

    def _rest(self):
        """Ends the run if nobody wants a verdict for a while."""
        if self.idle:
            self.idle.cancel()
        self.idle = asyncio.get_running_loop().call_later(IDLE, self._end_idle)

    def _end_idle(self):
        if not self.one.locked():
            self.drop()

    def drop(self):
        if self.run:
            self.run.kill()
            self.run = None

    def stop(self):
        for one in (self.next, self.idle):
            if one:
                one.cancel()
        self.drop()


async def fault_over(auditor, public):
    """Why `simulate` can't begin over these public columns, as an Ended, or None if it can."""
    process = await asyncio.create_subprocess_exec(
        auditor, "simulate", cwd=public, stdin=asyncio.subprocess.DEVNULL, stdout=asyncio.subprocess.DEVNULL,
        stderr=asyncio.subprocess.PIPE)
    _, complaint = await process.communicate()
    return ended_by(complaint, process.returncode) if process.returncode else None

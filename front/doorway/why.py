"""Why a question is denied: the certificate that `auditor explain` has for it, after the history as it is when somebody asks.

It runs over a copy of the journal beside `serve`, so no question waits for it. There is one run at a time, for all who asked meanwhile.
"""
import asyncio
import json

from .faults import Turned, away
from .places import Places
from .runs import Ended, cause_of

MOST, EACH = 64, 16                 # lines of one run and askers who may wait, and how many of them may be of one
PATIENCE = 30                       # seconds that a run may take
LONGEST = 65_536                    # bytes that a line has at most
PIECE = 65_536
VERDICTS = ("count", "refused", "released", "unsafe", "wide")


class Whys:
    """The askers of one table who want to know why, and the run that says it."""

    def __init__(self, opener, say):
        self.opener, self.say, self.patience = opener, say, PATIENCE
        self.waiting, self.taken = {}, {}   # the future of each line: not taken by a run yet, and with the run
        self.places, self.work = Places(MOST, EACH, "certificates"), None

    def need_program(self):
        if not self.opener.explains:
            raise Turned("unexplained")

    async def ask(self, line, asker):
        """What `explain` says of a question."""
        with self.places.one(asker):
            if line not in self.waiting:
                self.waiting[line] = asyncio.get_running_loop().create_future()
            said = self.waiting[line]
            if self.work is None:
                self.work = asyncio.ensure_future(self._work())
            return await asyncio.shield(said)       # others may wait for the same line

    async def _work(self):
        """Runs until nobody waits."""
        try:
            while self.waiting:
                self.taken, self.waiting = self.waiting, {}
                await self._say()
        finally:
            self.work = None
            self._turn_away("other")         # whatever went wrong: nobody waits without end

    async def _say(self):
        """Tells those whose lines are taken what a run says of them."""
        try:
            lines = await asyncio.wait_for(self._explained(list(self.taken)), self.patience)
        except asyncio.TimeoutError:
            self.say("auditor explain: it took too long")
            fail(self.taken, "late")
            return
        except (OSError, Ended) as fault:
            self.say(f"auditor explain: {fault}")
            fail(self.taken, cause_of(fault))
            return
        for said, line in zip(self.taken.values(), lines):
            said.set_result(line)

    async def _explained(self, questions):
        """The lines that a run sends for some questions."""
        run = await self.opener.open("explain")
        try:
            run.writer.write(b"".join(question + b"\n" for question in questions))
            lines = await self._lines(run, len(questions))
            await run.finish()
            return lines
        finally:
            run.kill()

    @staticmethod
    async def _lines(run, count):
        got = b""
        while got.count(b"\n") < count and len(got) <= count * LONGEST:
            more = await run.reader.read(PIECE)
            if not more:
                raise await run.why()
            got += more
        *lines, rest = got.split(b"\n")
        if len(lines) != count or rest or not all(map(is_explained, lines)):
            raise Ended("what it says isn't a line for each question", "replies")
        return lines

    def stop(self):
        if self.work:
            self.work.cancel()
        self._turn_away("closing")

    def _turn_away(self, cause):
        """Tells all who wait that nothing comes."""
        fail(self.taken, cause)
        fail(self.waiting, cause)
        self.waiting = {}


def fail(those, cause):
    """Turns away who still waits."""
    for said in those.values():
        if not said.done():
            said.set_exception(away(cause))
            said.exception()                # an asker who is gone doesn't fetch it


def is_explained(line):
    """Whether a line has the form of one of `explain`. That it is right, `demo/check_certificate.py` finds out."""
    try:
        return json.loads(line)["verdict"] in VERDICTS
    except (ValueError, KeyError, TypeError, RecursionError):
        return False

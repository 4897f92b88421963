"""Groups of questions: the one place where lines go into `auditor serve` and replies come out of it.

`serve --batch 64` replies once it has 64 lines, so a group is filled up with lines whose replies are known: `x`, which is
no question, and at last a count whose condition is some spaces. It is refused at the byte that is their number, so the
group's number comes back in the last reply. No such line makes a record, reads a row or costs a sync.

Promised: if replies are lost or doubled, whatever the reason, no question of that group gets a reply from it.
Not promised: that two replies of one kind weren't exchanged within a group. The program is proved not to do that.
"""
import asyncio

from .lines import fits
from .runs import Ended

NUMBERS = 97                        # groups are numbered from 0 to 96 and round again
LATE = 1                            # seconds that replies before the last one may come after it
PATIENCE = 60                       # seconds that a group may take
REPLY = 64                          # bytes that a reply has at most


class Groups:
    """Runs of `serve`, one after the other, and groups of lines asked of them."""

    def __init__(self, opener, batch, limit, twin=False):
        self.opener, self.batch, self.limit, self.twin = opener, batch, limit, twin
        self.most = max(batch - 1, 1) if batch > 1 else 63
        self.patience = PATIENCE
        self.run = None
        self.number = 0
        self.taken = 0                      # bytes that went into this run
        self.sent, self.broken = ([], []), ""

    async def start(self):
        """Opens a run. A first group of no question shows that the journal is read and is this run's alone."""
        self.kill()
        twin = ["--twin"] if self.twin else []
        self.run = await self.opener.open("serve", *twin, "--batch", str(self.batch))
        self.taken, self.broken = 0, ""
        await self.ask([])

    @property
    def spent(self):
        """Whether the run has taken nearly as much input as a run takes."""
        return self.taken > self.limit

    async def ask(self, lines):
        """The replies to some lines, at most `most` of them."""
        self.send(lines)
        return await self.receive()

    def send(self, lines):
        """Writes a group. It may wait for the program to read, and may be called in another thread."""
        if self.run is None:
            raise Ended("the program isn't started", "gone")
        fill, due = self._fillers(len(lines))
        self.sent = lines, due
        text = b"\n".join([*lines, *fill]) + b"\n"
        self.taken += len(text)
        try:
            self.run.write(text, self.patience)
        except OSError as fault:
            self.broken = str(fault)

    async def receive(self):
        """The replies to the group that was sent."""
        lines, due = self.sent
        count = len(lines) + len(due)
        try:
            if self.broken:
                raise await self._why()
            replies = await asyncio.wait_for(self._replies(count, due), self.patience)
        except asyncio.TimeoutError:
            self.kill()
            raise Ended("the program didn't reply in time", "late")
        except OSError:
            raise await self._why()
        if replies[len(lines):] != due or not self._fit(lines, replies):
            self.kill()
            raise Ended("the replies don't belong to the questions", "replies")
        return replies[:len(lines)]

    def _fillers(self, count):
        """The lines after the questions, and their replies."""
        if self.batch == 1 and count:
            return [], []
        self.number = (self.number + 1) % NUMBERS
        plain = max(self.batch, 2) - 1 - count
        last = b'{"ask":"count","where":"%s"}' % (b" " * self.number)
        return ([b"x"] * plain + [last],
                [b'{"refused":"line"}'] * plain + [b'{"refused":"where","at":%d}' % self.number])

    async def _replies(self, count, due):
        """Reads so many lines. If the last reply is there and others are not, they are lost."""
        got = b""
        while got.count(b"\n") < count:
            ended = bool(due) and got.endswith(b"\n" + due[-1] + b"\n")
            try:
                more = await asyncio.wait_for(self.run.reader.read(65536), LATE if ended else None)
            except asyncio.TimeoutError:
                return []
            if not more:
                raise await self._why()
            got += more
            if len(got) > count * REPLY * 2:
                return []
        replies = got.split(b"\n")
        return replies[:-1] if not replies[-1] and len(replies) == count + 1 else []

    @staticmethod
    def _fit(lines, replies):
        """A question asked alone gets what the program says. Among others each reply has to be of its question's kind."""
        return len(lines) <= len(replies) and (
            len(lines) == 1 or all(fits(line, reply) for line, reply in zip(lines, replies)))

    async def _why(self):
        """Why the run ended, once it has."""
        try:
            return await asyncio.wait_for(self.run.why(), 5)
        except asyncio.TimeoutError:
            self.kill()
            return Ended("the program closed its output")

    def kill(self):
        if self.run:
            self.run.kill()

    async def close(self):
        if self.run:
            run, self.run = self.run, None
            await run.finish()

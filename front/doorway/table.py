"""One table behind the door: its queue of questions, and the one loop that talks with its program.

Order for a group: its questions are written down and synced; it goes to the program; its replies come; what was decided
is written into the transcript and synced; the askers are told. So whoever was told an answer finds it in the transcript.
"""
import asyncio
import collections
import contextlib
import math
import sys

from .asked import Asked, Questions
from .askers import NOBODY
from .compacted import left_out
from .faults import Turned, away, sentence_of
from .lines import HISTORY
from .periods import open_period
from .places import Places
from .recovery import ask_again
from .report import Reports
from .runs import Ended, cause_of
from .simulation import FOLLOWS, Verdicts, fault_over
from .transcript import Damaged, Transcript, check_table, read_public
from .why import Whys

COUNT = b'{"ask":"count","where":"all"}'
WAITING = 1024                      # askers who may wait
PATIENCE = 60                       # seconds that an asker waits
VERDICTS, EACH = 16, 4              # askers who may wait for a verdict, and how many of them may be one
FIRST_PAUSE, QUIET, LONGEST_PAUSE = 0.02, 0.5, 10      # seconds between two starts; askers hear of it after the second


class Question:
    """A line that waits for its reply, for one asker or for several who asked the same."""

    def __init__(self, asked, first=None, new=False):
        self.line, self.key = asked.line, asked.key
        self.first = first                  # whose new answer it is if it becomes one
        self.new = new                      # whether it counts as one that tells something new
        self.askers = []                    # futures, with the time from which on they wait

    def wait(self):
        loop = asyncio.get_running_loop()
        asker = loop.create_future()
        self.askers.append((asker, loop.time()))
        return asker

    def answer(self, reply):
        self.end(reply)
        for asker, _ in self.askers:
            if not asker.done():
                asker.set_result(reply)
        self.askers.clear()

    def end(self, reply=b""):
        """Nothing more comes of it."""
        if self.first:
            self.first.end_answer(reply, self.new)
            self.first = None

    def fail(self, turned, since=math.inf):
        """Turns away those who have waited since then or longer."""
        for asker, began in self.askers:
            if began <= since and not asker.done():
                asker.set_exception(turned)
        self.askers = [one for one in self.askers if not one[0].done()]


class Table:
    """What an HTTP handler may call is `ask`, `verdict`, `why`, `health` and `transcript`."""

    def __init__(self, name, groups, places, auditor, report_every=0):
        self.name, self.groups, self.places, self.auditor = name, groups, places, auditor
        self.period = open_period(places.public, places.keep, self.say)
        self.left_out = left_out(places.keep)
        self.questions = Questions(*read_public(places.public))
        self.transcript = Transcript(places.keep, key=self.questions.key)
        self.indexing = None
        self.reports = Reports(self, places.keep, report_every)
        self.queue, self.pending = collections.deque(), {}
        self.wake, self.closing = asyncio.Event(), asyncio.Event()
        self.most_waiting, self.patience = WAITING, PATIENCE
        self.state = "starting"
        self.asked = self.sent = self.repeats = self.restarts = self.waiting = 0
        self.verdicts = Places(VERDICTS, EACH, "verdicts")
        self.simulated = Verdicts(auditor, self.period, self.transcript)
        self.whys = Whys(groups.opener, self.say)

    # What a request does.

    async def known(self, line):
        """What a line asks, and the answer if it was given. It waits until the answers of before are known by what they answer."""
        await self.index()
        asked = self.questions.read(line)
        return asked, self.transcript.answers.get(asked.key)

    async def index(self):
        """Has the earlier answers known by what they answer, once, in a thread of its own."""
        if self.indexing is None:
            self.indexing = asyncio.ensure_future(asyncio.to_thread(self.transcript.index))
        if not self.indexing.done():
            await asyncio.shield(self.indexing)

    async def ask(self, line, asker=NOBODY):
        """The reply to a question. A released answer stays true, so the same question makes no second record."""
        asked, known = await self.known(line)
        if known:
            self.repeats += 1
            return known
        self._need_open()
        if self.waiting >= self.most_waiting:
            raise Turned("questions", again=1)
        self.waiting += 1
        try:
            new = asked.is_secret and asker.counts_new() and await self._may_be_new(asked)
            return await self._reply(asked, asker, new)
        finally:
            self.waiting -= 1

    async def _may_be_new(self, asked):
        """Whether an answer may tell something new. One that follows from earlier answers never will."""
        return asked.key not in self.pending and await self._simulated(asked.line) != FOLLOWS

    async def _reply(self, asked, asker, new):
        given = self.transcript.answers.get(asked.key)      # by now
        if given:
            return given
        self._need_open()
        question = self.pending.get(asked.key)
        if question is None:
            if asked.is_secret:
                asker.begin_answer(new)
            question = self.pending[asked.key] = Question(asked, asker if asked.is_secret else None, new)
            self.queue.append(question)
            self.wake.set()
        return await question.wait()

    async def verdict(self, line, asker):
        """What would be said of a question that isn't asked, as `simulate` has it. An answer that was given tells nothing new."""
        asked, known = await self.known(line)
        if known:
            return FOLLOWS
        with self.verdicts.one(asker):
            return await self._simulated(asked.line)

    async def _simulated(self, line):
        try:
            return await self.simulated.on(line)
        except (Ended, OSError) as fault:
            self.say(f"auditor simulate: {fault}")
            raise away(cause_of(fault))

    async def why(self, line, asker):
        """Why a question is denied, after the history as it is now."""
        self.whys.need_program()
        self._need_open()
        return await self.whys.ask(line, asker)

    def health(self):
        records = self.given()
        return {"state": self.state, "records": records, "room": max(HISTORY - records, 0), "asked": self.asked,
                "groups": self.sent, "repeats": self.repeats, "restarts": self.restarts, "waiting": self.waiting,
                "transcript": self.transcript.size, "unwritten": self.transcript.unwritten, "compacted": self.left_out,
                "earlier": self.period.earlier}

    def given(self):
        """How many answers were given, in all periods, that the journal has to have."""
        return self.period.earlier + self.transcript.records - self.left_out

    def _need_open(self):
        if self.is_stopped():
            raise Turned("away", again=1, sentence=self.state)

    def is_stopped(self):
        """Whether no question is taken just now."""
        return self.closing.is_set() or self.state.startswith("stopped")

    def say(self, text):
        print(f"{self.name}: {text}" if self.name else text, file=sys.stderr, flush=True)

    # The loop.

    async def serve(self):
        """Takes questions from the queue in their order until `stop`."""
        self.reports.need_newest()
        indexing = asyncio.ensure_future(self.index())
        # As they were held: their pairs are looked for under these lines after another stop.
        await self.start([Question(Asked(line, self.questions.key(line))) for line in self.transcript.left])
        await indexing
        while not self.closing.is_set():
            if not self.queue:
                await self._rest()
                continue
            if self.groups.spent:
                await self.groups.close()
                await self.start([])
                continue
            await self._take()
        self._give_up("closing")
        await self.groups.close()

    async def _rest(self):
        """Waits for a question. If none comes for a while the report is made."""
        self.wake.clear()
        try:
            await asyncio.wait_for(self.wake.wait(), self.reports.every or None)
        except asyncio.TimeoutError:
            await self.reports.make()

    async def _take(self):
        group = [self.queue.popleft() for _ in range(min(len(self.queue), self.groups.most))]
        try:
            await self.ask_group(group)
        except Ended as fault:
            self.say(f"program: {fault}")
            self.restarts += 1
            await self.start(group)

    async def ask_group(self, group):
        lines = [question.line for question in group]
        await asyncio.to_thread(self._leave, lines)
        replies = await self.groups.receive()
        await asyncio.to_thread(self.transcript.add, list(zip(lines, replies)))
        self.asked += len(group)
        self.sent += 1
        for question, reply in zip(group, replies):
            self.answer(question, reply)

    def _leave(self, lines):
        """Writes the group down, and sends it in the same thread: the loop has the last group's askers to answer."""
        self.transcript.hold(lines)
        self.groups.send(lines)

    def answer(self, question, reply):
        self.pending.pop(question.key, None)
        question.answer(reply)

    async def start(self, left):
        """Starts the program, as often as it takes, and asks again what was with it when it ended.

        Askers wait on. They are told when it doesn't come back soon.
        """
        pause, self.state = FIRST_PAUSE, "starting"
        while not self.closing.is_set():
            try:
                self._need_same_table()
                await self.groups.start()
                await self._need_same_rows()
                await ask_again(self, left)
                self.state = "serving"
                return
            except (Ended, OSError) as fault:
                self.say(f"program: {fault}")
                self.groups.kill()
                if pause > QUIET:
                    self._give_up(await self._cause(fault))
                pause = min(pause * 2, LONGEST_PAUSE)
                await self._sleep(pause)
        self._give_up("closing")

    def _need_same_table(self):
        """Answers of another table aren't handed out: it may have grown since the door began."""
        try:
            check_table(self.places.public, self.places.keep)
        except Damaged:
            raise Ended("schema.json or the public table.csv has changed: start the door again, over the new ones", "changed")

    async def _need_same_rows(self):
        """The program's table and the public columns grow together, or what is shown of one isn't true of the other."""
        reply, = await self.groups.ask([COUNT])
        rows = self.questions.rows
        if reply != b'{"count":%d}' % rows:
            raise Ended(f"the public table.csv has {rows} rows{self.questions.only_words}, and the program says "
                        f"{reply.decode(errors='replace')}: put in the right one", "rows")

    async def _cause(self, fault):
        """Why the program doesn't begin. A socket doesn't say it. If it is for schema and public columns, `simulate` does."""
        if self.places.serve:
            with contextlib.suppress(OSError):
                found = await fault_over(self.auditor, self.period.simulating or self.places.public)
                if found:
                    self.say(f"auditor simulate: {found}")
                    return found.cause
        return cause_of(fault)

    async def _sleep(self, pause):
        try:
            await asyncio.wait_for(self.closing.wait(), pause)
        except asyncio.TimeoutError:
            pass

    def _give_up(self, cause):
        """Tells those who wait. What was with the program is asked again all the same."""
        self.state = f"stopped: {sentence_of(cause)}"
        turned = Turned("away", again=1, sentence=f"{sentence_of(cause)} The question may be answered: ask again later.")
        for question in self.pending.values():
            question.fail(turned)
        for question in self.queue:
            question.end()
        self.pending.clear()
        self.queue.clear()

    async def turn_away_the_late(self):
        """Tells those who have waited too long, again and again. Their questions are asked all the same."""
        turned = Turned("late")
        while True:
            await asyncio.sleep(min(self.patience / 4, 1))
            since = asyncio.get_running_loop().time() - self.patience
            for question in self.pending.values():
                question.fail(turned, since)

    def stop(self):
        self.closing.set()
        self.wake.set()
        self.whys.stop()
        self.simulated.stop()

    def stop_for_good(self, cause):
        """Ends the table, and not the door: other tables may be behind it."""
        self.groups.kill()
        self._give_up(cause)

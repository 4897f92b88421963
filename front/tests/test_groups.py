"""Groups of lines over a run that says what the test wants: the group's number, and replies that are missing."""
import asyncio
import sys
import unittest

from kit import FRONT, line_of

sys.path.insert(0, str(FRONT))
from doorway.groups import Groups  # noqa: E402
from doorway.runs import Ended  # noqa: E402

COUNT, SUM = line_of("count", 0, 9), line_of("sum", 0, 9)


class ScriptedRun:
    """Takes lines, and hands each whole group's honest replies to `alter` before they go out."""

    def __init__(self, alter):
        self.alter, self.reader, self.lines, self.killed = alter, asyncio.StreamReader(), [], False

    def write(self, text, patience):
        self.lines += [line for line in text.split(b"\n") if line]     # blank lines are passed over
        if len(self.lines) == 64:
            replies = [self.reply(line) for line in self.lines]
            self.lines = []
            self.reader.feed_data(b"".join(line + b"\n" for line in self.alter(replies)))

    @staticmethod
    def reply(line):
        if line == COUNT:
            return b'{"count":10}'
        if line == SUM:
            return b'{"sum":7}'
        if line == b"x":
            return b'{"refused":"line"}'
        return b'{"refused":"where","at":%d}' % line.count(b" ")

    async def why(self):
        return Ended("the program is gone", "gone")

    def kill(self):
        self.killed = True


class Opener:
    def __init__(self, alter):
        self.run = ScriptedRun(alter)

    async def open(self, *_):
        return self.run


class GroupsOfLines(unittest.IsolatedAsyncioTestCase):
    async def start(self, alter=lambda replies: replies):
        groups = Groups(Opener(alter), 64, 2**30)
        await groups.start()
        return groups

    async def test_the_questions_replies_come_back_without_the_fillers(self):
        groups = await self.start()
        for size in (0, 1, 2, 62, 63):
            self.assertEqual(await groups.ask([COUNT] * size), [b'{"count":10}'] * size)
        with self.assertRaises(Ended):
            groups.patience = 0.2
            await groups.ask([COUNT] * 62 + [b""])              # one line too few comes back

    async def test_numbers_go_round(self):
        groups = await self.start()
        for _ in range(300):
            self.assertEqual(await groups.ask([COUNT, SUM]), [b'{"count":10}', b'{"sum":7}'])

    async def test_the_last_reply_of_another_group_is_not_taken_for_this_ones(self):
        """One reply too many: from then on each group begins with the last reply of the group before it."""
        seen = []

        def shifted(replies):
            seen.append(replies)
            return replies if len(seen) < 2 else seen[-2][-1:] + replies[:-1]
        groups = await self.start(shifted)
        with self.assertRaises(Ended):
            await groups.ask([SUM])
        self.assertTrue(groups.run.killed)

        # A whole group that comes once more has fillers at the right places, and another number.
        seen.clear()
        groups = await self.start(lambda replies: seen.append(replies) or seen[0])
        with self.assertRaises(Ended):
            await groups.ask([])

    async def test_a_lost_reply_is_seen_soon(self):
        """The group may take an hour, and the last reply is there at once."""
        calls = []
        groups = await self.start(lambda replies: calls.append(1) or (replies if len(calls) == 1 else replies[1:]))
        groups.patience = 3600
        with self.assertRaises(Ended):
            await asyncio.wait_for(groups.ask([SUM]), 60)

    async def test_a_run_that_says_too_much_is_ended(self):
        calls = []
        groups = await self.start(lambda replies: calls.append(1) or (replies if len(calls) == 1 else [b"7" * 20_000]))
        with self.assertRaises(Ended):
            await groups.ask([SUM])
        self.assertTrue(groups.run.killed)


if __name__ == "__main__":
    unittest.main()

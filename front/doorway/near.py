"""What is near a denied question: the nearest one that would be answered, by the public columns and the transcript.

The door's run of `auditor simulate`, by which `/would` goes too, is asked one question after the other, the nearest first, until one is
released. Others' verdicts and answers may come in between: each question is judged by all answers up to then. Nothing is asked of the program
that has the table.
"""
import asyncio
import json

from planning.columns import line_of, read_columns
from planning.nearness import near
from preparing.conditions import Wrong

from .faults import Turned, away
from .lines import read_question
from .runs import Ended, cause_of
from .simulation import DENIALS, FOLLOWS, RELEASED

MOST = 200                          # questions that are looked at
ASKS = ("sum", "avg", "max", "min")
WITHHELD = b'{"verdict":"withheld"}'    # what the door itself doesn't hand on


class Nears:
    """Finds what is near, for one table. `least` is its least size, or None."""

    def __init__(self, table, least):
        self.table, self.rows, self.columns = table, least.rows if least else 0, None

    async def ask(self, line, asker):
        """What is near a question, as a dict: the verdict on itself, the nearest question, and how its rows differ."""
        question = read_question(line)
        if not question or question.get("ask") not in ASKS or not all(isinstance(question.get(key), str) for key in ("column", "where")):
            raise Turned("question")
        with self.table.verdicts.one(asker):
            few, others = await asyncio.to_thread(self._others, question["where"])
            first = WITHHELD if few else await self._verdict(line_of(question["ask"], question["column"], question["where"]))
            found = await self._nearest(question, others if few or first in DENIALS else [])
        return {**json.loads(first), **(found or {"near": None})}

    def _others(self, where):
        """Whether a condition is over too few rows, and the conditions near it, the nearest first; none if it isn't one."""
        if self.columns is None:
            self.columns = read_columns(self.table.places.public)
        try:
            rows = self.columns.rows_where(where)
            return rows and not self.columns.are_enough(rows, self.rows), near(where, self.columns, self.rows)[:MOST]
        except Wrong:
            return False, []

    async def _nearest(self, question, others):
        """The first of some conditions with which the question is released, or None."""
        for tried, other in enumerate(others, 1):
            verdict = await self._verdict(line_of(question["ask"], question["column"], other.where))
            if verdict in (RELEASED, FOLLOWS):
                return said_of(question, other, tried)
            if verdict not in DENIALS:
                break
        return None

    async def _verdict(self, line):
        """The verdict on a question, by the door's shared run."""
        try:
            return await self.table.simulated.on(line)
        except (Ended, OSError) as fault:
            self.table.say(f"auditor simulate: {fault}")
            raise away(cause_of(fault))


def said_of(question, other, tried):
    found = {"ask": question["ask"], "column": question["column"], "where": other.where}
    return {"near": found, "rows": other.rows.bit_count(), "more": other.more, "fewer": other.fewer, "tried": tried}

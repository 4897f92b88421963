"""The least size of groups: a question over too few rows, or that leaves too few out, isn't handed on.

How many rows a condition holds for is asked of the program's own reader, by a count, so by public columns alone; a count
makes no record. The door reads the condition out of the question's JSON. A question that it can't read isn't handed on.
"""
import json

from .faults import Turned
from .lines import read_question

SECRET = ("sum", "avg", "max", "min")
KEPT = 4096                         # conditions whose number of rows is remembered


class LeastSize:
    """`ask` gives the program's reply to a line."""

    def __init__(self, rows, ask):
        self.rows, self.ask, self.counts = rows, ask, {}

    async def check(self, line):
        question = read_question(line)
        where = question.get("where") if question else None
        kind = question.get("ask") if question else None
        if not isinstance(where, str) or kind not in (*SECRET, "count"):
            raise Turned("question")
        if kind == "count":
            return
        inside, whole = await self._count(where), await self._count("all")
        # The program says itself what is wrong with a condition.
        if inside is not None and (inside < self.rows or 0 < whole - inside < self.rows):
            raise Turned("few", least=self.rows)

    async def _count(self, where):
        """The number of rows, or None if the condition is refused."""
        if where not in self.counts:
            try:
                line = json.dumps({"ask": "count", "where": where}, ensure_ascii=False).encode()
            except UnicodeEncodeError:
                raise Turned("unicode")
            count = json.loads(await self.ask(line)).get("count")
            if len(self.counts) >= KEPT:
                self.counts.clear()
            self.counts[where] = count
        return self.counts[where]

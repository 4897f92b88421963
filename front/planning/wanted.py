"""Reads what is wanted: a question on each line, or a table.

A line is a question as the program takes it, with a "weight" if it is to count otherwise than the others; a question as ask.py
takes it, `sum salary where age >= 41`; or a table, `by team, site of sum salary with margins`.
"""
import dataclasses
import json
import math
import re

from asking.hints import hint
from asking.questions import Unclear, need_asked, need_public, parse
from preparing.conditions import Wrong
from preparing.faults import Fault, counted, shown

from .cells import cells_of
from .columns import line_of, within

MOST = 20_000                       # questions of a plan
LONGEST = 8192                      # bytes of a line, as the program has it
KEYS = {"ask", "column", "where", "user", "weight"}
ASKS = ("count", "sum", "avg", "max", "min")
TABLE = re.compile(r"by\s+(?P<by>\w+(?:\s*,\s*\w+)*)\s+of\s+(?P<ask>\w+)(?:\s+(?!with\b)(?P<column>\w+))?(?P<margins>\s+with\s+margins)?",
                   re.IGNORECASE)


@dataclasses.dataclass(frozen=True)
class Wanted:
    """A question, the number of its line, the rows it is over, and what it counts."""

    number: int
    ask: str
    column: str
    where: str
    rows: int
    weight: float

    @property
    def line(self):
        return line_of(self.ask, self.column, self.where)

    @property
    def size(self):
        """Over how many rows it is."""
        return self.rows.bit_count()

    def over(self, where, rows):
        """The same question over other rows."""
        return dataclasses.replace(self, where=where, rows=rows)


class Reader:
    """Reads lines over the columns of a table. `questions` are those that can be asked, `faults` a sentence for each other line."""

    def __init__(self, columns, equal=False):
        self.columns, self.equal = columns, equal
        self.questions, self.faults, self.known = [], [], {}

    def read(self, text):
        for number, line in enumerate(text.splitlines(), 1):
            if not line.strip():
                continue
            try:
                self._line(number, line.strip())
            except (Unclear, Fault) as why:
                self.faults.append(f"line {number:,}: {why}")
            if len(self.questions) > MOST:
                raise Fault(f"line {number:,}: more than {MOST:,} questions are wanted")

    def _line(self, number, line):
        if line.startswith("{"):
            return self._one(number, *self._written(line))
        if re.match(r"by\s", line, re.IGNORECASE):
            return self._table(number, line)
        question = parse(line, self.columns.kinds)
        if question.would or question.why:
            raise Fault("would and why aren't asked of a plan")
        if question.by:
            return self._cells(number, [question.by], question.ask, question.column, question.where, False)
        return self._one(number, question.ask, question.column, question.where, None)

    def _written(self, line):
        """The parts of a line of JSON."""
        try:
            question = json.loads(line)
        except (ValueError, RecursionError) as why:
            raise Fault(f"it isn't JSON ({why})" if isinstance(why, ValueError) else "it isn't JSON") from None
        if set(question) - KEYS or question.get("ask") not in ASKS or not isinstance(question.get("where"), str):
            raise Fault('it isn\'t a question: it has the keys "ask", "column" and "where", and may have "weight"')
        weight, column = question.get("weight"), question.get("column")
        if weight is not None and not (type(weight) in (int, float) and 0 < weight < math.inf):
            raise Fault(f"the weight {shown(json.dumps(weight))} isn't a number above 0")
        if (column is None) != (question["ask"] == "count") or column is not None and not isinstance(column, str):
            raise Fault('"column" is the name of a column, and a count has none')
        return question["ask"], column, question["where"], weight

    def _table(self, number, line):
        """All cells of a table."""
        head, where = partition_where(line)
        found = TABLE.fullmatch(head)
        if found is None or found["ask"] not in ASKS or (found["column"] is None) != (found["ask"] == "count"):
            raise Fault("a table is written as: by team, site of sum salary with margins where CONDITION")
        by = re.split(r"\s*,\s*", found["by"])
        if len(set(by)) < len(by):
            raise Fault("a table is by different columns")
        self._cells(number, by, found["ask"], found["column"], where, bool(found["margins"]))

    def _cells(self, number, by, ask, column, where, margins):
        """The cells that some row is in. One that two tables have in common is wanted once."""
        for name in by:
            need_public(name, self.columns.kinds)
        self._need_column(ask, column)
        base = self._rows(where)
        for cell in cells_of(by, self.columns.rows, self.columns.publics, margins):
            condition, rows = within(where, cell.where), base
            for name, value in zip(by, cell.values):
                rows &= self.columns.everyone if value is None else self.columns.values(name)[value]
            if rows and (ask, column, condition) not in self.known:
                self._add(number, ask, column, condition, rows, None)

    def _one(self, number, ask, column, where, weight):
        """A question that was written out."""
        self._need_column(ask, column)
        rows = self._rows(where)
        if not rows:
            raise Fault(f"no row satisfies the condition {shown(where)}")
        before = self.known.get((ask, column, where.strip()))
        if before:
            raise Fault(f"it is doubled: line {before:,} is the same question")
        self._add(number, ask, column, where.strip(), rows, weight)

    def _add(self, number, ask, column, where, rows, weight):
        if weight is None:
            weight = 1 if self.equal else self.columns.people(rows)
        question = Wanted(number, ask, column, where, rows, weight)
        if len(question.line) > LONGEST:
            raise Fault(f"the question has {counted(len(question.line), 'byte')}, and {LONGEST:,} are read")
        self.known[ask, column, where] = number
        self.questions.append(question)

    def _need_column(self, ask, column):
        if column is not None:
            need_asked(ask, column, self.columns.kinds)

    def _rows(self, where):
        try:
            return self.columns.rows_where(where)
        except Wrong as wrong:
            why = hint(where, wrong.at, self.columns.kinds, {})
            raise Fault(f"the condition {shown(where)} isn't understood from byte {wrong.at} on" + (f": {why}" if why else "")) from None


def partition_where(line):
    """What stands before the condition of a line, and the condition; all rows if it has none."""
    parts = re.split(r"\s+where\s+", line, maxsplit=1, flags=re.IGNORECASE)
    return parts[0].strip(), parts[1].strip() if len(parts) == 2 else "all"

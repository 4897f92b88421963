"""What a question asks, whatever its bytes are: the kind of number, the column, and the rows for which the condition holds.

Two questions that ask the same have the same key, so that one answer makes one record: with another `user`, other blanks, another order
of keys, or another condition over the same rows. A line that isn't a question here goes on byte for byte and is known by its bytes.

Promised: nothing. The program reads each line itself. If this reading differed from it, an asker could get the answer to another
question; the tests compare both.
"""
import bisect
import functools
import hashlib
import itertools
import json
import operator
from dataclasses import dataclass

from preparing.conditions import Reader, Wrong, asked_rows

from .growth import rows_of
from .lines import read_question

KINDS = ("sum", "avg", "max", "min")
KEYS = {"ask", "column", "where", "user"}
KEY = 16                            # bytes of the sum that a key is
REMEMBERED = 1024                   # lines of which it is remembered what they ask


@dataclass(frozen=True)
class Asked:
    """A line as it goes to the program, and the key of what it asks: a number, or the line itself if it asks for no secret column."""

    line: bytes
    key: int | bytes

    @property
    def is_secret(self):
        """Whether it asks for a secret column, so that an answer makes a record."""
        return isinstance(self.key, int)


class PublicColumn:
    """The rows in which a public column has a value, or a number on one side of a value, each set of rows as the bits of a number."""

    def __init__(self, cells):
        rows = {}
        for place, cell in enumerate(cells):
            rows[cell] = rows.get(cell, 0) | 1 << place
        self.rows, self.all = rows, (1 << len(cells)) - 1

    @functools.cached_property
    def values(self):
        return sorted(self.rows)

    @functools.cached_property
    def below(self):
        """For each place among the sorted values the rows whose value stands before it."""
        return list(itertools.accumulate((self.rows[value] for value in self.values), operator.or_, initial=0))

    def less(self, value):
        return self.below[bisect.bisect_left(self.values, value)]

    def at_most(self, value):
        return self.below[bisect.bisect_right(self.values, value)]

    def compared(self, mark, value):
        if mark in ("=", "!="):
            equal = self.rows.get(value, 0)
            return equal if mark == "=" else self.all ^ equal
        if mark in ("<", ">="):
            less = self.less(value)
            return less if mark == "<" else self.all ^ less
        at_most = self.at_most(value)
        return at_most if mark == "<=" else self.all ^ at_most


class RowReader(Reader):
    """Reads a condition as `Reader` does, and gives the rows for which it holds."""

    def __init__(self, text, kinds, columns, all_rows):
        self.columns, self.all_rows = columns, all_rows
        super().__init__(text, kinds)

    def either(self, parts):
        return functools.reduce(operator.or_, parts)

    def both(self, parts):
        return functools.reduce(operator.and_, parts)

    def other(self, unit):
        return self.all_rows ^ unit

    def everyone(self):
        return self.all_rows

    def one_of(self, name, values):
        return functools.reduce(operator.or_, (self.columns[name].rows.get(value, 0) for value in values))

    def compared(self, name, mark, value):
        return self.columns[name].compared(mark, value)


class Questions:
    """Reads the questions on one table, by its schema and public columns. `rows` is the number of rows that questions are over."""

    def __init__(self, schema, table):
        schema = json.loads(schema)
        self.kinds = {column["name"]: column["is"] for column in schema["columns"] if column["is"] in ("text", "number")}
        rows = asked_rows(schema, self.kinds, rows_of(table, self.kinds))
        self.columns = {name: PublicColumn([row[name] for row in rows]) for name in self.kinds}
        self.rows, self.all_rows = len(rows), (1 << len(rows)) - 1
        self.only_words = f" where {schema['only']}" if "only" in schema else ""
        self.read = functools.lru_cache(REMEMBERED)(self._read)

    def rows_of(self, where):
        """The rows for which a condition holds, or None if it isn't one."""
        try:
            reader = RowReader(where, self.kinds, self.columns, self.all_rows)
            rows = reader.condition()
            reader.take("end")
            return rows
        except Wrong:
            return None

    def key(self, line):
        return self.read(line).key

    def _read(self, line):
        """What a line asks. The program takes a `user` and makes nothing of it: a question goes on without it."""
        question = question_of(line)
        if question is None:
            return Asked(line, line)
        if "user" in question:
            del question["user"]
            line = json.dumps(question, ensure_ascii=False, separators=(",", ":")).encode()
        rows = self.rows_of(question["where"]) if question["ask"] in KINDS else None
        return Asked(line, line if rows is None else key_of(question["ask"], question["column"], rows))


def question_of(line):
    """The question as the program reads it, or None: an object of texts under its keys and no other, with a column if it isn't a count."""
    question = read_question(line)
    if question is None or not question.keys() <= KEYS or not {"ask", "where"} <= question.keys():
        return None
    if ("column" in question) == (question["ask"] == "count") or question["ask"] not in (*KINDS, "count"):
        return None
    return question if all(map(is_text, question.values())) else None


def is_text(value):
    """Whether a value is a text of Unicode. Python's reader takes halves of a pair of code units, which the program doesn't."""
    try:
        return isinstance(value, str) and value.encode() is not None
    except UnicodeEncodeError:
        return False


def key_of(kind, column, rows):
    text = f"{kind} {column} {rows:x}".encode()
    return int.from_bytes(hashlib.blake2b(text, digest_size=KEY).digest(), "big")

"""Conditions over public columns, by the grammar of the page on formats: which rows one is over, or where it goes wrong.

The program reads them itself, and what it says counts. Here they are read before there is a table for it to read.
"""

import operator
import re

MOST_TOKENS, MOST_DEPTH, MOST_SIZE = 512, 64, 10**12
KEYWORDS = ("and", "or", "not", "all", "in")
TOKEN = re.compile(
    r"[ \t\r\n]*(?:(?P<word>[A-Za-z][A-Za-z0-9_]*)|(?P<number>-?[0-9]+)|(?P<text>'(?:[^']|'')*'(?!'))|(?P<mark>[!<>]=|[=<>(),])"
    r"|(?P<end>\Z)|(?P<wrong>))"
)
COMPARISONS = {
    "=": operator.eq,
    "!=": operator.ne,
    "<": operator.lt,
    "<=": operator.le,
    ">": operator.gt,
    ">=": operator.ge,
}
TAKES = {"number": tuple(COMPARISONS), "text": ("=", "!=")}


class Wrong(Exception):
    """What isn't a condition. `at` is the byte from which on it isn't understood."""

    def __init__(self, text, place):
        self.at = len(text[:place].encode("utf-8", "surrogatepass"))
        super().__init__(f"not understood from byte {self.at} on")


class Reader:
    """A text of which the next token is known: its kind (a mark and a keyword are their own), its text and its place."""

    def __init__(self, text, kinds):
        self.text, self.kinds = text, kinds
        self.end = self.read = self.depth = 0
        self.advance()

    def advance(self):
        """Goes on to the next token; the end of the text is one too, of the kind `end`."""
        found = TOKEN.match(self.text, self.end)
        self.kind = found.lastgroup
        self.token, self.place, self.end = found[self.kind], found.start(self.kind), found.end()
        if self.kind == "end":
            return
        self.read += 1
        if self.kind == "wrong" or self.read > MOST_TOKENS:
            self.fail()
        if self.kind == "mark" or self.token in KEYWORDS:
            self.kind = self.token
        elif self.kind == "number" and (len(self.token.lstrip("-0")) > 13 or abs(number_of(self.token)) > MOST_SIZE):
            self.fail()

    def fail(self):
        raise Wrong(self.text, self.place)

    def take(self, *kinds):
        """The token, if it is of one of these kinds."""
        if self.kind not in kinds:
            self.fail()
        token = self.token
        self.advance()
        return token

    def deeper(self, read):
        """What a reading gives within one more `not` or bracket."""
        if self.depth == MOST_DEPTH:
            self.fail()
        self.depth += 1
        self.advance()
        found = read()
        self.depth -= 1
        return found

    def condition(self):
        return self.either(self.joined("or", self.part))

    def part(self):
        return self.both(self.joined("and", self.unit))

    def joined(self, keyword, read):
        """One or more of a kind, with a keyword between two of them."""
        found = [read()]
        while self.kind == keyword:
            self.advance()
            found.append(read())
        return found

    def unit(self):
        if self.kind == "not":
            return self.other(self.deeper(self.unit))
        if self.kind == "(":
            condition = self.deeper(self.condition)
            self.take(")")
            return condition
        if self.kind == "all":
            self.advance()
            return self.everyone()
        return self.comparison()

    def comparison(self):
        name = self.token
        if self.kind != "word" or name not in self.kinds:
            self.fail()
        self.advance()
        if self.kind == "in":
            return self.one_of(name, self.values(self.kinds[name]))
        mark = self.take(*TAKES[self.kinds[name]])
        return self.compared(name, mark, self.literal(self.kinds[name]))

    def values(self, kind):
        """The literals in brackets after `in`."""
        self.advance()
        self.take("(")
        values = {self.literal(kind)}
        while self.kind == ",":
            self.advance()
            values.add(self.literal(kind))
        self.take(")")
        return values

    def literal(self, kind):
        token = self.take(kind)
        return number_of(token) if kind == "number" else token[1:-1].replace("''", "'")

    # What a reading gives: a function that says of a row whether it holds. Another reader may give something else.

    def either(self, parts):
        return lambda row: any(part(row) for part in parts)

    def both(self, units):
        return lambda row: all(unit(row) for unit in units)

    def other(self, unit):
        return lambda row: not unit(row)

    def everyone(self):
        return lambda row: True

    def one_of(self, name, values):
        return lambda row: row[name] in values

    def compared(self, name, mark, value):
        compare = COMPARISONS[mark]
        return lambda row: compare(row[name], value)


def number_of(token):
    """The number of a token, which may have more zeros at its front than Python's own reader takes."""
    number = int(token.lstrip("-0") or "0")
    return -number if token[0] == "-" else number


def read_condition(text, kinds):
    """A function that says of a row whether the condition holds for it, or Wrong. `kinds` are those of the public columns."""
    reader = Reader(text, kinds)
    condition = reader.condition()
    reader.take("end")
    return condition


def asked_rows(schema, kinds, rows):
    """The rows that questions are over: those that satisfy the schema's `only`, or all. What isn't a condition the program says."""
    try:
        return list(filter(read_condition(schema["only"], kinds), rows)) if "only" in schema else rows
    except (Wrong, TypeError):
        return rows

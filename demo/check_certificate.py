#!/usr/bin/env python3
"""Checks the certificates of `auditor explain` with whole numbers alone, knowing nothing of the program.

Run it in the folder of schema.json, table.csv and answers.journal, with the questions once more as a file:

    auditor explain < questions.jsonl | python3 check_certificate.py questions.jsonl

It reads the files by FORMATS.md, of table.csv the public columns alone, and finds the rows of each condition itself. For a
sum it counts the named records' sets and the asked set, each as often as the line says: every row of what would be given away
has to come to `times`, and every other row to 0. For a maximum the printed list has to give each record's answer and the new
one, and all rows but those that it names of the named set have to lie in sets with a lower answer, for a minimum in sets with a greater one.
The row, or the rows together, have to be guarded: fewer people than the schema's `fewest` are behind them, or than two, and one more if the
schema says that the askers are inside. Then a line may also name the row of an asker, of one person, who knows her own number: a sum's sets
come to `share` there besides, and of maxima and minima that row may have the answer too. It says how many records and lines were checked,
or which file or line is wrong and why, and ends with 0 or 1.

A yes shows of each denial with a certificate that an answer could have given away this number, or this protected total. It
doesn't show that a line without a certificate is right, that the journal is the one in use, or that no other certificate holds.
"""

import csv
import json
import operator
import re
import sys

from check_report import BOUNDS, KINDS, MOST_ROWS, People, Wrong, are_whole, need, records, records_of_table, schema, secret_columns, stated

LARGEST = 2**112
MOST_TERMS = MOST_ROWS  # no more sets are independent
LONGEST_LINE = 8192
MOST_TOKENS = 512
DEEPEST = 64
UNCERTIFIED = ("count", "refused", "released", "wide")
BLANKS = r"[ \t\r\n]*"
TOKEN = re.compile(rf"{BLANKS}(?:([A-Za-z][A-Za-z0-9_]*)|(-?[0-9]+)|'((?:[^']|'')*)'|(!=|<=|>=|[=<>(),])){BLANKS}")
EQUALITIES = {"=": operator.eq, "!=": operator.ne}
ORDERS = {"<": operator.lt, "<=": operator.le, ">": operator.gt, ">=": operator.ge}


def tokens_of(text):
    """The tokens of a condition: a str for a word or a mark, and a tuple that holds the value of a literal."""
    tokens, at = [], 0
    while at < len(text):
        found = TOKEN.match(text, at)
        need(found and len(tokens) < MOST_TOKENS, f"its condition can't be read from character {at} on")
        word, number, quoted, mark = found.groups()
        if number is not None:
            tokens.append((int(number),))
        elif quoted is not None:
            tokens.append((quoted.replace("''", "'"),))
        else:
            tokens.append(word or mark)
        at = found.end()
    return tokens


class Condition:
    """A condition, read from left to right; each part gives the rows that satisfy it."""

    def __init__(self, text, public, rows):
        self.tokens, self.at = tokens_of(text), 0
        self.public, self.all = public, frozenset(range(rows))

    def rows(self):
        found = self.any_of(0)
        need(self.at == len(self.tokens), "its condition goes on after its end")
        return found

    def next(self):
        need(self.at < len(self.tokens), "its condition ends too early")
        self.at += 1
        return self.tokens[self.at - 1]

    def comes(self, token):
        """Passes over the token if it comes next."""
        found = self.tokens[self.at:self.at + 1] == [token]
        self.at += found
        return found

    def expect(self, token):
        need(self.comes(token), f"its condition lacks a {token}")

    def any_of(self, depth):
        found = self.all_of(depth)
        while self.comes("or"):
            found |= self.all_of(depth)
        return found

    def all_of(self, depth):
        found = self.unit(depth)
        while self.comes("and"):
            found &= self.unit(depth)
        return found

    def unit(self, depth):
        need(depth <= DEEPEST, f"its condition is nested more than {DEEPEST} deep")
        token = self.next()
        if token == "all":
            return self.all
        if token == "not":
            return self.all - self.unit(depth + 1)
        if token == "(":
            found = self.any_of(depth + 1)
            self.expect(")")
            return found
        need(token in self.public, "its condition names no public column")
        return self.compared(self.public[token])

    def compared(self, values):
        mark = self.next()
        if mark == "in":
            listed = self.listed(values)
            return frozenset(row for row in self.all if values[row] in listed)
        test = EQUALITIES.get(mark) or isinstance(values[0], int) and ORDERS.get(mark)
        need(test, "its condition has no comparison that the column can have")
        literal = self.literal(values)
        return frozenset(row for row in self.all if test(values[row], literal))

    def listed(self, values):
        self.expect("(")
        listed = [self.literal(values)]
        while self.comes(","):
            listed.append(self.literal(values))
        self.expect(")")
        return listed

    def literal(self, values):
        """A literal to compare the values with: a number with numbers, a text with texts."""
        token = self.next()
        need(isinstance(token, tuple) and type(token[0]) is type(values[0]), "its condition has no literal of the column's kind")
        return token[0]


def protected_groups():
    """The protected groups of the schema: a column's name and a condition for each."""
    try:
        return [(group["column"], group["where"]) for group in schema().get("protect", [])]
    except (AttributeError, LookupError, TypeError):
        raise Wrong("no schema") from None


def public_columns():
    """The columns that conditions may name, by name: a number or a text for each row."""
    columns = [(column["name"], column["is"]) for column in schema()["columns"]]
    header, rows = records_of_table()
    need(header == [name for name, _ in columns], "the header isn't that of the schema")
    public = {}
    for place, (name, role) in enumerate(columns):
        if role in ("number", "text"):
            cells = [row[place] for row in rows]
            public[name] = [int(cell.strip(" ")) for cell in cells] if role == "number" else cells
    return public


class Facts:
    """What a certificate may rest on, all of it public: rows and their public columns, protected groups, records."""

    def __init__(self):
        self.columns = secret_columns()
        self.people = People()
        self.rows = len(self.people.counts)
        self.public = public_columns()
        self.records = list(records(self.columns, self.rows))
        groups = [(self.place(name, "sum"), self.chosen(where)) for name, where in protected_groups()]
        # A group without a row protects nothing, and isn't counted.
        self.groups = [(column, chosen) for column, chosen in groups if chosen]

    def place(self, name, kind):
        need((name, kind) in self.columns, f"there is no column {name} of kind {kind}")
        return self.columns.index((name, kind))

    def chosen(self, where):
        need(isinstance(where, str), "its condition isn't a text")
        return Condition(where, self.public, self.rows).rows()

    def question(self, text):
        """The column and the rows that are asked about."""
        try:
            asked = json.loads(text.decode())
            ask, name, where = asked["ask"], asked["column"], asked["where"]
        except (LookupError, RecursionError, TypeError, ValueError):
            raise Wrong("its question asks about no secret column") from None
        need(ask in ("sum", "avg", *BOUNDS), "its question asks about no secret column")
        chosen = self.chosen(where)
        need(chosen, "its question is over no row")
        return self.place(name, ask if ask in BOUNDS else "sum"), chosen

    def record(self, place, column):
        """The answer and the rows of the record at a place of the history, which has to be one of the column."""
        need(is_place(place, self.records), "it names no record")
        of, answer, chosen = self.records[place]
        need(of == column, f"record {place} is one of another column")
        return answer, chosen


def is_place(number, places):
    return are_whole([number]) and 0 <= number < len(places)




def own_row(facts, line):
    """The row whose number an asker knows, if the line names one."""
    if "own" not in line:
        return None
    need(facts.people.inside, "an asker's own row, and the schema doesn't say that the askers are inside")
    need(is_place(line["own"], range(facts.rows)) and facts.people.may_know(line["own"]), "an asker's own row is one of one person")
    return line["own"]


def few_rows(facts, line, own):
    """The row that the line names, or the rows, which have to be so few people's that these are guarded."""
    rows = line.get("rows", [line.get("row")])
    need(isinstance(rows, list) and rows and all(is_place(row, range(facts.rows)) for row in rows), "it names no row")
    need("row" in line or rows == sorted(set(rows)) and len(rows) > 1, "several rows stand in ascending order")
    need(facts.people.are_few(rows, own) and own not in rows, f"what rows {rows} have isn't guarded")
    return rows


def given_away(facts, column, line, own):
    """The rows whose total would be known: a single row, or those of a protected group."""
    if "row" in line:
        return set(few_rows(facts, line, own))
    need(is_place(line["group"], facts.groups), "it names no protected group")
    of, chosen = facts.groups[line["group"]]
    need(of == column, f"group {line['group']} is one of another column")
    need(set(chosen) - {own}, f"nobody but the asker is in group {line['group']}")
    return chosen


def check_sum(facts, column, asked, line):
    need(facts.columns[column][1] == "sum", "a certificate for sums, and the column is another one")
    own = own_row(facts, line)
    target = given_away(facts, column, line, own)
    times, share, terms = line["times"], line.get("share", 0), line["by"]
    need(isinstance(terms, list) and len(terms) <= MOST_TERMS, f"it has no list of at most {MOST_TERMS} terms")
    need(all(are_whole(term) and len(term) == 2 for term in terms), "a term isn't a record and its number")
    numbers = [times, share, line["asked"], *(number for _, number in terms)]
    need(are_whole(numbers) and times >= 1, "its numbers aren't whole, or times is below 1")
    need(all(abs(number) <= LARGEST for number in numbers), "a number is beyond 2^112")
    totals = [0] * facts.rows
    for chosen, number in [(asked, line["asked"]), *((facts.record(place, column)[1], number) for place, number in terms)]:
        for row in chosen:
            totals[row] += number
    for row, total in enumerate(totals):
        due = (times if row in target else 0) + (share if row == own else 0)
        need(total == due, f"the sets come to {total} in row {row}, and not to {due}")


def check_bounds(facts, column, asked, line):
    kind = facts.columns[column][1]
    word, extreme = BOUNDS.get(kind, (None, None))
    need(word in line, "a certificate for maxima or minima, and the column is another one")
    answer, own, numbers = line["answer"], own_row(facts, line), line[word]
    few = few_rows(facts, line, own)
    need(are_whole([answer]), "it has no whole answer")
    need(are_whole(numbers) and len(numbers) == facts.rows, "it has no list with a whole number for each row")
    answers = [(stated(kind, kept), chosen) for of, kept, chosen in facts.records if of == column] + [(answer, asked)]
    for value, chosen in answers:
        # The asker's own number may be another one than the list's.
        others = [numbers[place] for place in chosen if place != own]
        need(others and extreme(others) == value, f"its list doesn't give the answer {value}")
        need(extreme(numbers[place] for place in chosen) == value, f"its list doesn't give the answer {value}")
    value, chosen = (answer, asked)
    if line["pair"] != "asked":
        kept, chosen = facts.record(line["pair"], column)
        value = stated(kind, kept)
    need(set(few) <= set(chosen) and own in (None, *chosen), "a row that it names isn't in the set that it names")
    # In a set with a lower maximum, or a greater minimum, no row has the number.
    without = set().union(*(rows for other, rows in answers if other != value and extreme(other, value) == value))
    need(without.issuperset(set(chosen) - {*few, own}), f"another row than {few} could have the {value}")


FORMS = {
    frozenset(("verdict", "row", "times", "by", "asked")): check_sum,
    frozenset(("verdict", "group", "times", "by", "asked")): check_sum,
    frozenset(("verdict", "row", "own", "share", "times", "by", "asked")): check_sum,
    frozenset(("verdict", "group", "own", "share", "times", "by", "asked")): check_sum,
    frozenset(("verdict", "answer", "row", "pair", "high")): check_bounds,
    frozenset(("verdict", "answer", "row", "pair", "low")): check_bounds,
    frozenset(("verdict", "answer", "row", "own", "pair", "high")): check_bounds,
    frozenset(("verdict", "answer", "row", "own", "pair", "low")): check_bounds,
    frozenset(("verdict", "answer", "rows", "pair", "high")): check_bounds,
    frozenset(("verdict", "answer", "rows", "pair", "low")): check_bounds,
}


def check_line(facts, question, line):
    """What the line is: a verdict alone, a certificate that holds, or word that one is too wide."""
    need(isinstance(line, dict), "no object of JSON")
    if line.get("verdict") != "unsafe":
        need(line in [{"verdict": verdict} for verdict in UNCERTIFIED], "no verdict")
        return "verdict"
    need(question is not None, "a line that is too long for a question is never unsafe")
    column, asked = facts.question(question)
    if line == {"verdict": "unsafe", "proof": "wide"}:
        need(facts.columns[column][1] == "sum", "only a certificate for sums can be too wide")
        return "wide"
    check = FORMS.get(frozenset(line))
    need(check, "no certificate has these keys")
    check(facts, column, asked, line)
    return "certificate"


def questions(path):
    """The lines that count: blank ones are passed over, and one that is too long is None."""
    with open(path, "rb") as file:
        for piece in file.read().split(b"\n"):
            text = piece.removesuffix(b"\r")
            if len(piece) > LONGEST_LINE:
                yield None
            elif text:
                yield text


def keys_once(pairs):
    need(len(dict(pairs)) == len(pairs), "a key comes twice")
    return dict(pairs)


def explained():
    """The lines of standard input."""
    with open(0, "rb") as file:
        for text in file:
            need(text.endswith(b"\n"), "the line has no end")
            try:
                yield json.loads(text.decode(), object_pairs_hook=keys_once)
            except (ValueError, RecursionError):
                raise Wrong("no JSON") from None


def main():
    if len(sys.argv) != 2:
        print("usage: auditor explain < QUESTIONS | check_certificate.py QUESTIONS")
        return 2
    where, found = "schema.json, table.csv, answers.journal", []
    try:
        facts = Facts()
        where = sys.argv[1]
        lines = explained()
        for question in questions(sys.argv[1]):
            where = f"line {len(found) + 1}"
            line = next(lines, None)
            need(line is not None, "the line is missing")
            found.append(check_line(facts, question, line))
        where = f"line {len(found) + 1}"
        need(next(lines, None) is None, "there are more lines than questions")
    except (Wrong, OSError, LookupError, TypeError, ValueError) as wrong:
        print(f"{where}: {wrong.strerror if isinstance(wrong, OSError) else wrong or type(wrong).__name__}")
        return 1
    certificates, wide = found.count("certificate"), found.count("wide")
    print(f"checked {len(facts.records)} records, {len(found)} lines: {certificates} certificates hold, {wide} are too wide to print")
    return 0


if __name__ == "__main__":
    sys.exit(main())

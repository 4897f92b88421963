"""Asks a front door from Python. This one file needs nothing but the standard library; ask.py asks in a terminal.

    >>> import auditor
    >>> table = auditor.connect("http://127.0.0.1:8087")        # or unix:PATH of the door's socket
    >>> table.sum("salary", where="age >= 41")                  # in the column's unit, exactly
    Decimal('1765.00')
    >>> table.sum("salary", where="age = 41")                   # not answered: a value that isn't a number
    Denied('unsafe')
    >>> table.totals("salary", by="team")                       # a DataFrame, if pandas is there

Numbers are decimals in the unit of the column, by notes.json: totals exactly, averages to six places more than the column has. With
`steps=True` they are as the table has them, whole numbers of the smallest steps, and averages exact fractions.
What comes back is what the door said. The door isn't proved: `auditor simulate` checks its transcript. One object is for one thread.
"""
import base64
import collections
import csv
import decimal
import fractions
import http.client
import io
import itertools
import json
import re
import socket
import time
import urllib.parse

Group = collections.namedtuple("Group", "value rows answer")
Near = collections.namedtuple("Near", "where rows more fewer")
EXACT = decimal.Context(prec=60)
MORE_PLACES = 6                     # of an average


class Denied:
    """No answer, as was decided without looking at the values. It is false, and arithmetic with it fails."""

    def __init__(self, reason, sentence="", table=""):
        self.reason, self.sentence, self.table = reason, sentence or reason, table

    def __repr__(self):
        return f"Denied({self.reason!r})"

    def __bool__(self):
        return False

    def __eq__(self, other):
        return isinstance(other, Denied) and other.reason == self.reason

    def __hash__(self):
        return hash(("Denied", self.reason))


class Verdict(str):
    """What would be said now, a word. `new` is false if the answer would add nothing new, since it follows from earlier ones; true of another
    answer, and None where there would be none, or a count."""

    def __new__(cls, word, new=None):
        verdict = super().__new__(cls, word)
        verdict.new = new
        return verdict

    def __repr__(self):
        return f"Verdict({str(self)!r}{'' if self.new is None else f', new={self.new}'})"


class Refused(ValueError):
    """No question of this table. `at` is the byte of the condition from which on it isn't understood, if that is why."""

    def __init__(self, reason, sentence="", at=None):
        super().__init__((sentence or reason) + ("" if at is None else f" (byte {at})"))
        self.reason, self.sentence, self.at = reason, sentence or reason, at


class DoorFault(ConnectionError):
    """The door, or a proxy before it, gave no reply of the program: `status` is that of HTTP, 0 if none came."""

    def __init__(self, text, status=0):
        super().__init__(text)
        self.status = status


class UnixConnection(http.client.HTTPConnection):
    """HTTP over a socket of the file system."""

    def __init__(self, path, timeout):
        super().__init__("localhost", timeout=timeout)
        self.path = path

    def connect(self):
        self.sock = socket.socket(socket.AF_UNIX)
        self.sock.settimeout(self.timeout)
        self.sock.connect(self.path)


class Door:
    """The connection to a door. A door that is busy or away is asked again for `patience` seconds: no harm comes of it. `token` is the
    asker's at the door, `login` a name and a password for the proxy before it."""

    def __init__(self, url, headers=None, timeout=90, patience=10, token=None, login=None):
        self.headers, self.patience, self.connection = {**(headers or {}), **login_of(token, login)}, patience, None
        self.url, parts = url, urllib.parse.urlsplit(url)
        if "@" in parts.netloc:
            raise ValueError("a login goes into login=(NAME, PASSWORD), and not into the address")
        if parts.scheme == "unix":
            path = url.removeprefix("unix:")
            self.base, self.open = "/", lambda: UnixConnection(path, timeout)
        elif parts.scheme in ("http", "https") and parts.netloc:
            kind = http.client.HTTPSConnection if parts.scheme == "https" else http.client.HTTPConnection
            self.base, self.open = parts.path.rstrip("/") + "/", lambda: kind(parts.netloc, timeout=timeout)
        else:
            raise ValueError(f"{url!r} is neither http://HOST:PORT, https://HOST nor unix:PATH")

    def request(self, method, path, body=None):
        """The text of a reply with status 200, or a DoorFault."""
        deadline, wait = time.monotonic() + self.patience, 0.1
        while True:
            try:
                status, text, later = self._once(method, path, body)
            except TimeoutError:
                self.close()
                raise DoorFault("no reply in time; the question may be answered: ask again") from None
            except (OSError, http.client.HTTPException) as fault:
                self.close()
                status, text, later = 0, f"the door can't be reached: {fault}", 0
            if status == 200:
                return text
            pause = max(wait, later)
            if status not in (0, 503) or time.monotonic() + pause > deadline:
                raise DoorFault(text, status)
            time.sleep(pause)
            wait *= 2

    def _once(self, method, path, body):
        """Status, text, and the seconds after which a busy door wants to be asked again."""
        if self.connection is None:
            self.connection = self.open()
        headers = {**self.headers, "Content-Type": "application/json"} if body else self.headers
        self.connection.request(method, self.base + path, body, headers)
        response = self.connection.getresponse()
        text = response.read().decode("utf-8", "replace")
        if response.status == 200:
            return 200, text, 0
        later = response.headers.get("Retry-After", "")
        return response.status, error_of(response, text), int(later) if re.fullmatch("[0-9]{1,4}", later) else 0

    def close(self):
        if self.connection is not None:
            self.connection.close()
        self.connection = None


def login_of(token, login):
    """The header that says who asks. A token, and a name with a password, never stand in an address: others see those."""
    if token and login:
        raise ValueError("a token or a login, not both")
    if token:
        return {"Authorization": f"Bearer {token}"}
    if login:
        return {"Authorization": "Basic " + base64.b64encode(":".join(login).encode()).decode()}
    return {}


def error_of(response, text):
    """What a reply that isn't 200 says."""
    try:
        said = json.loads(text)["error"]
    except (ValueError, KeyError, TypeError):
        said = None
    return said if isinstance(said, str) else f"the door, or a proxy before it, says {response.status} {response.reason}"


def parsed(name, text):
    """A reply of JSON. A proxy's login page may come with status 200, too."""
    try:
        return json.loads(text)
    except ValueError:
        raise DoorFault(f"{name}: what came isn't the reply of a door, but {ascii(text[:60])}", 200) from None


def within(where, part):
    """The condition of a group within another, as the page writes it, too: the same question asked again makes no record."""
    if part == "all":
        return where
    return part if where.strip() == "all" else f"({where}) and {part}"


def cells_of(by, rows, order):
    """The values and the condition of each cell by some columns, the totals over them first; a condition has the columns in an order."""
    found = []
    for kept in sorted(itertools.product((True, False), repeat=len(by)), key=sum) if len(by) > 1 else [(True,)]:
        names = [name for name, one in zip(by, kept) if one]
        for values in sorted({tuple(row[name] for name in names) for row in rows}):
            known = dict(zip(names, values))
            parts = [equals(name, known[name]) for name in order if name in known]
            found.append((tuple(known.get(name) for name in by), " and ".join(parts) or "all"))
    return found


def equals(column, value):
    """The condition that a public column has a value."""
    text = "'" + value.replace("'", "''") + "'" if isinstance(value, str) else str(int(value))
    return f"{column} = {text}"


def listed(names):
    """Some names as a sentence has them: a, b and c."""
    return " and ".join([", ".join(names[:-1]), names[-1]] if len(names) > 1 else names)


def counted(terms):
    """Some terms in words: records 0 and 2, 3 times record 4 and the answer asked for."""
    once = [str(place) for place, times in terms if abs(times) == 1 and place != "asked"]
    names = ["record" + "s" * (len(once) > 1) + " " + listed(once)] if once else []
    for place, times in terms:
        name = "the answer asked for" if place == "asked" else f"record {place}"
        if abs(times) != 1 or place == "asked":
            names.append(name if abs(times) == 1 else f"{abs(times)} times {name}")
    return listed(names)


class Why:
    """Why a question is denied. `line` is what `auditor explain` says, `str` a sentence; true if it has a certificate."""

    def __init__(self, line, sentence, table=""):
        self.line, self.sentence, self.table = line, sentence, table

    @property
    def verdict(self):
        return self.line["verdict"]

    def __bool__(self):
        return self.verdict == "unsafe" and "proof" not in self.line

    def __str__(self):
        return self.sentence

    def __repr__(self):
        return f"Why({self.sentence!r})"


def sum_words(line, target):
    """A certificate for sums: what would be known is some records and the question, less others."""
    terms = [*line["by"], ["asked", line["asked"]]]
    less = counted([term for term in terms if term[1] < 0])
    times = "" if line["times"] == 1 else f"{line['times']} times "
    return f"{times}{target} is {counted([term for term in terms if term[1] > 0])}" + (f", less {less}" if less else "")


def max_words(line, value):
    """A certificate for maxima or minima: with which answer one row alone could have a number. `value` writes a number of the column."""
    answer, row, bounds = value(line["answer"]), line["row"], line["low" if "low" in line else "high"]
    if line["pair"] == "asked":
        return f"were the answer {answer}, row {row} would be the only one that can have it"
    return f"were the answer {answer}, row {row} would be the only one of record {line['pair']} that can have the {value(bounds[row])}"


def only_words(where):
    """Over which rows every question is, if not over all."""
    return f"; every question is over the rows where {where}" if where else ""


def rows_words(rows, more, fewer):
    """How many rows a question is over, and how they differ from another one's."""
    counts = [f"{number} {word}" for number, word in ((more, "more"), (fewer, "fewer")) if number]
    return f"{rows} row{'' if rows == 1 else 's'}, {' and '.join(counts) or 'as many'}"


class Asker:
    """The questions that a table and tables as parts of one have in common."""

    def count(self, where="all"):
        """The number of rows for which the condition holds."""
        return self.ask("count", None, where)

    def sum(self, column, where="all", steps=False):
        """The exact total, or Denied."""
        return self.number("sum", column, where, steps)

    def average(self, column, where="all", steps=False):
        """The average to six places more than the column has, with `steps` an exact fraction, or Denied."""
        return self.number("avg", column, where, steps)

    def max(self, column, where="all", steps=False):
        """The greatest number, or Denied."""
        return self.number("max", column, where, steps)

    def min(self, column, where="all", steps=False):
        """The least number, or Denied."""
        return self.number("min", column, where, steps)

    def number(self, kind, column, where="all", steps=False):
        """An answer in the column's unit, or in its steps, as the program says it."""
        answer = self.ask(kind, column, where)
        return answer if steps else self.in_units(column, answer)

    def groups(self, column, by, kind="sum", where="all", steps=False):
        """A Group (value, rows, answer) for each value of a public column, in their order; a group of no rows isn't asked.

        If `by` has two columns the values are pairs, and all totals over them are there too, with None for all values of a column.
        The group with the most rows is asked first: what is answered first closes other answers.
        """
        names = [by] if isinstance(by, str) else list(by)
        for name in names:
            if self.kinds.get(name) not in ("text", "number") or names.count(name) > 1:
                raise Refused("column", f"{name}: there is no such public column.")
        cells = cells_of(names, self.public(), [name for name in self.kinds if name in names])
        found = [(values, within(where, part)) for values, part in cells]
        counted_cells = [(values, condition, self.count(condition)) for values, condition in found]
        asked = {values: rows if kind == "count" else self.number(kind, column, condition, steps)
                 for values, condition, rows in sorted(counted_cells, key=lambda cell: -cell[2]) if rows}
        return [Group(values[0] if isinstance(by, str) else values, rows, asked[values]) for values, _, rows in counted_cells if rows]

    def totals(self, column, by, where="all", steps=False):
        """The totals of groups as a pandas DataFrame: rows, sum (pandas.NA if denied), denied (the reason, or "").

        By one column its values are the index; by two they are columns, with pandas.NA in the totals over all values of one.
        """
        try:
            import pandas
        except ImportError:
            raise ImportError("totals makes a DataFrame and needs pandas; groups gives the same as a list") from None
        groups = self.groups(column, by, "sum", where, steps)
        denied = [isinstance(group.answer, Denied) for group in groups]
        sums = [pandas.NA if no else group.answer for group, no in zip(groups, denied)]
        frame = pandas.DataFrame({
            "rows": [group.rows for group in groups],
            "sum": pandas.array(sums, dtype="Int64" if steps else object),
            "denied": [group.answer.reason if no else "" for group, no in zip(groups, denied)],
        })
        if isinstance(by, str):
            return frame.set_index(pandas.Index([group.value for group in groups], name=by))
        for place, name in enumerate(by):
            values = [pandas.NA if group.value[place] is None else group.value[place] for group in groups]
            frame.insert(place, name, pandas.array(values, dtype="Int64" if self.kinds[name] == "number" else "string"))
        return frame

    def places(self, column):
        """How many decimals of a column are in its whole numbers, by notes.json."""
        places = self.note(column).get("decimals")
        return places if isinstance(places, int) and 0 <= places <= 12 else 0

    def note(self, column):
        columns = self.notes.get("columns")
        note = columns.get(column) if isinstance(columns, dict) else None
        return note if isinstance(note, dict) else {}

    def in_units(self, column, answer):
        """An answer in the column's unit, as a decimal, and Denied as it is."""
        places = self.places(column)
        if isinstance(answer, Denied):
            return answer
        if isinstance(answer, fractions.Fraction):
            average = EXACT.divide(decimal.Decimal(answer.numerator), decimal.Decimal(answer.denominator)).scaleb(-places, EXACT)
            return average.quantize(decimal.Decimal(1).scaleb(-places - MORE_PLACES), decimal.ROUND_HALF_EVEN, EXACT)
        return decimal.Decimal(answer).scaleb(-places, EXACT)


class Table(Asker):
    """One table behind a door: the only one, or that of a name."""

    def __repr__(self):
        return f"Table({self.door.url!r}, {self.name!r}: {', '.join(self.kinds)}{only_words(self.only)})"

    def __init__(self, url, name="", headers=None, timeout=90, patience=10, token=None, login=None):
        self.door, self.name = Door(url, headers, timeout, patience, token, login), name
        self.base = urllib.parse.quote(name, safe="") + "/" if name else ""
        schema = parsed("schema.json", self.door.request("GET", self.base + "schema.json"))
        self.columns, self.protected = schema["columns"], schema.get("protect") or []
        self.kinds = {column["name"]: column["is"] for column in self.columns}
        self.only = schema["only"] if isinstance(schema.get("only"), str) else ""       # what the rows of every question satisfy
        self.words, self.notes = self._optional("words.json"), self._optional(self.base + "notes.json")

    def _optional(self, path):
        """A file of JSON that a door need not have."""
        try:
            found = parsed(path, self.door.request("GET", path))
        except DoorFault as fault:
            if fault.status != 404:
                raise
            found = {}
        return found if isinstance(found, dict) else {}

    def sentence(self, group, reason):
        """The sentence for a reason, by words.json; if there is none, the reason itself."""
        known = self.words.get(group)
        return known.get(reason, reason) if isinstance(known, dict) else reason

    def _post(self, path, kind, column, where):
        question = {"ask": kind, "where": where} if column is None else {"ask": kind, "column": column, "where": where}
        line = json.dumps(question, ensure_ascii=False, separators=(",", ":")).encode("utf-8", "surrogatepass")
        try:
            return parsed(path, self.door.request("POST", self.base + path, line))
        except DoorFault as fault:
            if not self.name:
                raise
            raise DoorFault(f"{self.name}: {fault}", fault.status) from None

    def ask(self, kind, column, where="all"):
        """The answer to `count`, `sum`, `avg`, `max` or `min`, or Denied; Refused is raised."""
        reply = self._post("ask", kind, column, where)
        if "denied" in reply:
            named = any(total["column"] == column and total["where"].strip() == where.strip() for total in self.protected)
            sentence = self.sentence("note", "protected") if named else self.sentence("denied", reply["denied"])
            return Denied(reply["denied"], sentence, self.name)
        if "refused" in reply:
            raise Refused(reply["refused"], self.sentence("refused", reply["refused"]), reply.get("at"))
        return fractions.Fraction(reply["num"], reply["den"]) if kind == "avg" else reply[kind]

    def would(self, kind, column, where="all"):
        """What would be said now, as a Verdict: released, unsafe, wide, refused or count. Nothing is asked and nothing is kept."""
        said = self._post("would", kind, column, where)
        try:
            return Verdict(said["verdict"], said.get("new", True) if said["verdict"] == "released" else None)
        except (LookupError, TypeError):
            raise DoorFault(f"would: what came isn't the reply of a door, but {ascii(json.dumps(said)[:60])}", 200) from None

    def why(self, kind, column, where="all"):
        """Why the question is denied, after the answers given so far; nothing is asked and nothing is kept."""
        line = self._post("why", kind, column, where)
        try:
            return Why(line, self._why_words(line, column), self.name)
        except (LookupError, TypeError, ValueError, decimal.InvalidOperation):
            raise DoorFault(f"why: what came isn't a line of auditor explain, but {ascii(json.dumps(line)[:60])}", 200) from None

    def near(self, kind, column, where="all"):
        """The nearest question that would be answered now, as a Near of its condition, its rows, and how many of them are more and fewer;
        None if there is none, or if this one isn't denied. Nothing is asked."""
        said = self._post("near", kind, column, where)
        try:
            return None if said["near"] is None else Near(said["near"]["where"], said["rows"], said["more"], said["fewer"])
        except (LookupError, TypeError):
            raise DoorFault(f"near: what came isn't the reply of a door, but {ascii(json.dumps(said)[:60])}", 200) from None

    def _why_words(self, line, column):
        if line["verdict"] != "unsafe" or "proof" in line:
            return self.sentence("why", "proof" if "proof" in line else line["verdict"])
        if "answer" in line:
            return max_words(line, lambda number: f"{self.in_units(column, number):f}")
        return sum_words(line, self._target(line))

    def _target(self, line):
        """What would be known, in words. Protected totals of no row have no place; a count makes no record."""
        if "row" in line:
            return f"the number of row {line['row']}"
        place = line["group"]
        for total in self.protected:
            if self.count(total["where"]):
                if place == 0:
                    return f"the protected total where {total['where']}"
                place -= 1
        raise LookupError(line["group"])

    def public(self):
        """The public columns, a dict for each row of the table: also for those that don't satisfy `only`, which no question is over."""
        text = self.door.request("GET", self.base + "table.csv").removeprefix("\ufeff")
        return [{name: int(value) if self.kinds[name] in ("number", "count") else value for name, value in row.items()}
                for row in csv.DictReader(io.StringIO(text, newline=""))]

    def transcript(self):
        """Everybody's questions on secret columns, each with its reply."""
        lines = self.door.request("GET", self.base + "transcript.jsonl").split("\n")
        return [(json.loads(question), json.loads(reply)) for question, reply in zip(lines[::2], lines[1::2])]


class Parts(Asker):
    """Tables as parts of one. A question is asked of all that have rows for it, or of none if one of them wouldn't answer."""

    def __repr__(self):
        only = " or ".join(dict.fromkeys(table.only or "all" for table in self.tables))
        return f"Parts({', '.join(table.name for table in self.tables)}: {', '.join(self.kinds)}{only_words('' if only == 'all' else only)})"

    def __init__(self, tables):
        self.tables = list(tables)
        first = self.tables[0]
        self.columns, self.kinds, self.notes, self.sentence = first.columns, first.kinds, first.notes, first.sentence
        self.protected = []
        for table in self.tables:
            self.protected += [total for total in table.protected if total not in self.protected]
        for table in self.tables:
            if table.columns != first.columns:
                raise ValueError(f"{table.name} has other columns than {first.name}: they aren't parts of one table")

    def would(self, kind, column, where="all"):
        """What each part would say now, by its name."""
        return {table.name: table.would(kind, column, where) for table in self.tables}

    def why(self, kind, column, where="all"):
        """Why the first part that wouldn't answer denies it, or why the first one says nothing of that."""
        found = [table.why(kind, column, where) for table in self.tables]
        return next((why for why in found if why.verdict in ("unsafe", "wide")), found[0])

    def near(self, kind, column, where="all"):
        """The nearest question that each part by itself would answer, by its name."""
        return {table.name: table.near(kind, column, where) for table in self.tables}

    def ask(self, kind, column, where="all"):
        """The answer over all parts. `table` of a Denied is the part that wouldn't answer."""
        counts = [(table, table.count(where)) for table in self.tables]
        if kind == "count":
            return sum(rows for _, rows in counts)
        asked = [(table, rows) for table, rows in counts if rows]
        if not asked:
            raise Refused("empty", self.sentence("refused", "empty"))
        for table, _ in asked:
            verdict = table.would(kind, column, where)
            if verdict in ("unsafe", "wide"):
                return Denied(str(verdict), self.sentence("denied", verdict), table.name)
        return together(kind, [(table.ask(kind, column, where), rows) for table, rows in asked])

    def public(self):
        """The public columns of all parts, a dict for each row of theirs."""
        return [row for table in self.tables for row in table.public()]


def together(kind, answers):
    """One answer of those of the parts, each with its rows, or the first that is denied."""
    for answer, _ in answers:
        if isinstance(answer, Denied):
            return answer
    if kind in ("max", "min"):
        return (max if kind == "max" else min)(answer for answer, _ in answers)
    if kind == "avg":
        return sum(answer * rows for answer, rows in answers) / sum(rows for _, rows in answers)
    return sum(answer for answer, _ in answers)


def connect(url, headers=None, timeout=90, patience=10, token=None, login=None):
    """The table behind a door, or its tables as parts of one. `token` and `login` say who asks; `headers` go with each request."""
    door = Door(url, headers, timeout, patience, token, login)
    try:
        names = parsed("tables.json", door.request("GET", "tables.json"))
    except DoorFault as fault:
        if fault.status != 404:
            raise
        names = []
    finally:
        door.close()
    if not names:
        return Table(url, "", headers, timeout, patience, token, login)
    return Parts(Table(url, name, headers, timeout, patience, token, login) for name in names)

"""A front door as a place where questions go: one table behind it, or several as parts of one."""

import fractions
import json
import urllib.parse

from clients.auditor import Door as Connection
from clients.auditor import DoorFault, together

from .questions import Question
from .replies import Away, columns_of, line_of, notes_of, only_of, protected_of, reply_of, rows_of
from .words import answer_of

PATIENCE = 10                       # seconds for which a door that is busy or away is asked again
DENIALS = ("unsafe", "wide", "withheld")


class Door:
    """A table behind a front door, by http://HOST:PORT, https://.. or unix:PATH of its socket: the only one, or that of a name."""

    def __init__(self, connection, name=""):
        self.connection, self.name = connection, name
        self.base = urllib.parse.quote(name, safe="") + "/" if name else ""
        schema = self._send("GET", "schema.json")
        self.columns, self.protected, self.only = columns_of(schema), protected_of(schema), only_of(schema)
        self.notes = notes_of(sent(connection, "GET", self.base + "notes.json", otherwise="{}"))

    def _send(self, method, path, body=None):
        try:
            return sent(self.connection, method, self.base + path, body)
        except Away as why:
            raise Away(f"{self.name}: {why}" if self.name else str(why)) from None

    def rows(self):
        """The public columns of each row."""
        return rows_of(self._send("GET", "table.csv"), self.columns, self.only)

    def _post(self, path, question):
        return reply_of(self._send("POST", path, line_of(question)))

    def ask(self, question):
        return self._post("ask", question)

    def would(self, question):
        return self._post("would", question)

    def why(self, question):
        return self._post("why", question)

    def near(self, question):
        said = self._post("near", question)
        if not {"verdict", "near"} <= said.keys() or said["near"] is not None and not {"rows", "more", "fewer"} <= said.keys():
            raise Away(f"what comes back isn't a reply of a front door: {said}")
        return said

    def parts(self):
        """The tables that it is made of, by name: itself."""
        return [(self.name, self)]

    def close(self):
        self.connection.close()


class Parts:
    """Tables as parts of one. A question is asked of all that have rows for it, or of none if one of them wouldn't answer."""

    def __init__(self, doors):
        self.doors = doors
        self.columns, self.notes = doors[0].columns, doors[0].notes
        self.protected = list(dict.fromkeys(total for door in doors for total in door.protected))
        self.only = list(dict.fromkeys(where for door in doors for where in door.only))
        other = next((door.name for door in doors if door.columns != self.columns), None)
        if other:
            raise Away(f"{other} has other columns than {doors[0].name}: choose one of them by --table")

    def rows(self):
        return [row for door in self.doors for row in door.rows()]

    def ask(self, question):
        """The reply over all parts; the part that doesn't answer is its `table`."""
        counts = [(door, door.ask(Question("count", where=question.where))) for door in self.doors]
        refused = next((reply for _, reply in counts if "count" not in reply), None)
        if refused:
            return refused
        if question.ask == "count":
            return {"count": sum(reply["count"] for _, reply in counts)}
        sizes = [(door, reply["count"]) for door, reply in counts if reply["count"]]
        if not sizes:
            return {"refused": "empty"}
        for door, _ in sizes:
            verdict = door.would(question).get("verdict")
            if verdict in DENIALS:
                return {"denied": verdict, "table": door.name}
        return self._asked(question, sizes)

    def _asked(self, question, sizes):
        replies = [(door, rows, door.ask(question)) for door, rows in sizes]
        missing = next(({**reply, "table": door.name} for door, _, reply in replies if answer_of(reply) is None), None)
        if missing:
            return missing
        number = fractions.Fraction(together(question.ask, [(answer_of(reply), rows) for _, rows, reply in replies]))
        return {"num": number.numerator, "den": number.denominator} if question.ask == "avg" else {question.ask: int(number)}

    def would(self, question):
        """What the first part that wouldn't answer says, or what the first one says."""
        replies = [door.would(question) for door in self.doors]
        return next((reply for reply in replies if reply.get("verdict") in DENIALS), replies[0])

    def parts(self):
        """The tables that it is made of, by name."""
        return [(door.name, door) for door in self.doors]

    def close(self):
        self.doors[0].close()


def sent(connection, method, path, body=None, otherwise=None):
    """The text of what comes back, or what stands for a file that isn't there."""
    try:
        return connection.request(method, path, body).removeprefix("\ufeff")
    except DoorFault as fault:
        if fault.status == 404 and otherwise is not None:
            return otherwise
        if fault.status == 0:
            raise Away(f"{connection.url} doesn't answer: {fault}") from None
        raise Away(f"the front door says: {fault}") from None


def door(address, headers, table):
    """The table at an address, that of a name, or all tables there as parts of one. Who isn't there at once isn't waited for."""
    if "@" in urllib.parse.urlsplit(address).netloc:
        raise Away("a name and a password don't go into the address: --login NAME asks for the password")
    connection = Connection(address, headers=headers, patience=0)
    names = [table] if table else names_of(sent(connection, "GET", "tables.json", otherwise="[]"))
    doors = [Door(connection, name) for name in names or [""]]
    connection.patience = PATIENCE
    return doors[0] if len(doors) == 1 else Parts(doors)


def names_of(text):
    """The names of the tables behind a door."""
    try:
        names = json.loads(text)
    except ValueError:
        names = None
    if not isinstance(names, list) or not all(isinstance(name, str) for name in names):
        raise Away("tables.json isn't a list of names")
    return names

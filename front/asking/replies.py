"""What the files of a table say, and what comes back for a question. What isn't as it should be raises Away with a sentence."""

import csv
import io
import json

from preparing.choices import COUNT
from preparing.conditions import asked_rows

SECRET = ("sum", "max", "min")
NUMBERS = ("den", "num", "count", "sum", "max", "min", "at")


class Away(Exception):
    """Why no reply can be had, in a sentence."""


def reply_of(text):
    """A reply as a dict, of which every number is whole and no average is over nothing."""
    try:
        reply = json.loads(text)
    except ValueError:
        reply = None
    numbers = [reply.get(key, 1) for key in NUMBERS] if isinstance(reply, dict) else [None]
    if not all(type(number) is int for number in numbers) or numbers[0] < 1:
        raise Away(f"what comes back isn't a reply of auditor: {text[:80]!r}")
    return reply


def columns_of(text):
    """The kind of each column by name."""
    try:
        return {column["name"]: column["is"] for column in json.loads(text)["columns"]}
    except (ValueError, LookupError, TypeError):
        raise Away("what is there isn't a schema: it has no columns") from None


def protected_of(text):
    """Column and condition of each total that is protected."""
    try:
        return [(total["column"], total["where"]) for total in json.loads(text).get("protect", [])]
    except (LookupError, TypeError, AttributeError):
        raise Away('what is there isn\'t a schema: each entry of "protect" has the keys column and where') from None


def only_of(text):
    """The condition that the rows of every question satisfy, in a list, which is empty if there is none."""
    only = json.loads(text).get("only")
    return [only] if isinstance(only, str) else []


def notes_of(text):
    """Titles, decimals and units by column, for people."""
    try:
        columns = json.loads(text).get("columns", {})
        return {name: note for name, note in columns.items() if isinstance(note, dict)}
    except (ValueError, AttributeError):
        raise Away("notes.json isn't one: it is an object with columns") from None


def rows_of(text, columns, only=()):
    """A dict for each row that questions are over with its public values, those of numbers as whole numbers, and how many people it stands for."""
    csv.field_size_limit(2**24)
    public = {name: kind for name, kind in columns.items() if kind not in SECRET}
    rows = csv.DictReader(io.StringIO(text, newline=""))
    found = [{name: row[name] if kind == "text" else int(row[name]) for name, kind in public.items()} for row in rows]
    return asked_rows({"only": where for where in only}, {name: kind for name, kind in public.items() if kind != COUNT}, found)


def line_of(question):
    """The bytes of a question's line."""
    try:
        return json.dumps(question.line(), ensure_ascii=False, separators=(",", ":")).encode()
    except UnicodeEncodeError:
        raise Away("the question has bytes in it that aren't UTF-8") from None

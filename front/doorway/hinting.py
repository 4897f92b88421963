"""Why a condition isn't understood, and how it is written: what ask.py says in a terminal, for the page and for programs.

By the schema, the notes and the door's own reader alone: nothing is asked.
"""
import asyncio
import json

from asking.hints import hint, mended
from preparing.conditions import Reader, Wrong

from .faults import Turned
from .lines import read_question


class Hints:
    """The hints for one table."""

    def __init__(self, places):
        self.places, self.kinds = places, None

    async def on(self, line):
        """The byte from which on a question's condition isn't understood, why, and what to write; each null if there is none."""
        where = (read_question(line) or {}).get("where")
        if not isinstance(where, str):
            raise Turned("question")
        return await asyncio.to_thread(self._on, where)

    def _on(self, where):
        if self.kinds is None:
            self._read()
        at = fault_in(where, self.public)
        if at is None:
            return {"at": None, "hint": None, "write": None}
        try:
            why, better = hint(where, at, self.kinds, self.decimals), mended(where)
        except (ValueError, UnicodeError):      # numbers of thousands of digits, and halves of pairs
            why, better = None, where
        return {"at": at, "hint": why and why + ("" if why.endswith(("?", ".")) else "."),
                "write": better if better != where and fault_in(better, self.public) is None else None}

    def _read(self):
        schema = json.loads((self.places.public / "schema.json").read_text(encoding="utf-8-sig"))
        kinds = {column["name"]: column["is"] for column in schema["columns"]}
        self.public = {name: kind for name, kind in kinds.items() if kind in ("text", "number")}
        self.decimals = decimals_in(self.places.public / "notes.json")
        self.kinds = kinds


def fault_in(where, public):
    """The byte from which on a text isn't a condition, or None if it is one."""
    try:
        reader = Reader(where, public)
        reader.condition()
        reader.take("end")
    except Wrong as wrong:
        return wrong.at
    return None


def decimals_in(path):
    """The decimals of the columns by the notes, which a table need not have, and which may be anything."""
    try:
        columns = json.loads(path.read_text(encoding="utf-8-sig"))["columns"]
        decimals = {name: note.get("decimals") for name, note in columns.items() if isinstance(note, dict)}
    except (OSError, ValueError, LookupError, TypeError, AttributeError):
        return {}
    return {name: places for name, places in decimals.items() if isinstance(places, int) and 0 < places <= 12}

"""Asks a plan before the door listens, once: so nobody can first ask what would close a question of the plan.

The file has a question on each line, as plan.py prints them. They are asked one after the other, in their order. `first.sha256` in the
door's own folder stands for the last file that was asked whole. A door that was stopped before that asks all of it again: what was
answered comes from the transcript, and makes no second record.
"""
import asyncio
import hashlib
import json
import time

from preparing.faults import listed

from .askers import NOBODY
from .faults import Turned
from .files import write_whole
from .lines import line_of

NAME = "first.sha256"
PAUSE = 0.5                         # seconds after which a program that is away is asked again
EVERY = 5                           # seconds between two words on how far it is
AWAY = (503, 504)


class First:
    """The questions of a file, and what came of them."""

    def __init__(self, text, handlers):
        self.lines = [(number, line) for number, line in enumerate(text.split(b"\n"), 1) if line.strip()]
        self.sum, self.handlers, self.table = hashlib.sha256(text).hexdigest().encode() + b"\n", handlers, handlers.table
        self.mark = self.table.places.keep / NAME
        self.answered, self.others, self.said = 0, [], time.monotonic()

    async def ask(self):
        """Asks all of them, unless that was done before."""
        if self.mark.exists() and self.mark.read_bytes() == self.sum:
            return
        for number, line in self.lines:
            try:
                reply = json.loads(await self._reply(line_of(line)))
            except Turned as turned:
                reply = {"error": turned.text}
            self._note(number, reply)
        write_whole(self.mark, self.sum)
        self.table.say(f"first: {self.answered:,} of {len(self.lines):,} questions are answered, and the door listens now")
        if self.others:
            self.table.say(f"first: not answered:\n{listed(self.others)}")

    async def _reply(self, line):
        """The reply to a line. A program that is away is waited for."""
        why = ""
        while True:
            try:
                return await self.handlers.ask(line, NOBODY)
            except Turned as turned:
                if turned.status not in AWAY:
                    raise
                if self.table.state != why:
                    why = self.table.state
                    self.table.say(f"first: waits, and the door doesn't listen: {turned.text}")
            await asyncio.sleep(PAUSE)

    def _note(self, number, reply):
        other = next((f"{key} {reply[key]}" for key in ("denied", "refused", "error") if key in reply), None)
        if other is None:
            self.answered += 1
        else:
            self.others.append(f"line {number:,}: {other.removeprefix('error ')}")
        if time.monotonic() - self.said > EVERY:
            self.said = time.monotonic()
            self.table.say(f"first: {self.answered + len(self.others):,} of {len(self.lines):,} questions were asked")


async def ask_first(firsts, serving):
    """Asks the files of all tables, while these are served, and says whether it came to the end of them before the tables ended."""
    asking = asyncio.gather(*(first.ask() for first in firsts))
    await asyncio.wait({asking, serving}, return_when=asyncio.FIRST_COMPLETED)
    if serving.done():
        asking.cancel()
        return False
    await asking
    return True

"""The report of `auditor audit`, made when nobody asks.

The journal has one run at a time, so `serve` rests meanwhile. A question ends the report at once; it is made in the next
rest. What the report counts shows whether the journal is an older copy: then answers were told that it doesn't hold, and
the promise of the program doesn't reach over them.
"""
import asyncio
import json
import os

from . import compacted
from .files import write_whole
from .runs import Ended

PIECE = 65_536
LAST = 200                          # bytes that the last line of a report has at most


class OlderJournal(Exception):
    """The journal holds fewer answers than were given."""


class Reports:
    """The reports of one table. `path` is the last whole one."""

    def __init__(self, table, keep, every):
        self.table, self.every = table, every
        self.path, self.fresh = keep / "report.jsonl", keep / "report.jsonl.new"
        self.stopped = keep / "stopped.txt"
        self.of = -1                        # answers that the last report was made over

    def need_newest(self):
        """Raises what an earlier report found, until somebody has put the journal right and removed the file."""
        if self.stopped.exists():
            raise OlderJournal(f"{self.stopped}: {self.stopped.read_text().strip()}")

    async def make(self):
        """Makes a report if there are new answers. In the end the program serves again."""
        if self.of == self.table.transcript.records:
            return
        await self.table.groups.close()
        try:
            await self._make()
        except (OSError, Ended) as fault:
            self.table.say(f"report: {fault}")
        await self.table.start([])

    async def _make(self):
        run = await self.table.groups.opener.open("audit")
        writing = asyncio.ensure_future(self._write(run.reader))
        asked = asyncio.ensure_future(self.table.wake.wait())
        await asyncio.wait({writing, asked}, return_when=asyncio.FIRST_COMPLETED)
        asked.cancel()
        if not writing.done():
            writing.cancel()
            run.kill()
            return
        counted = await writing
        if counted is None:
            ended = await run.why()
            run.kill()
            raise ended
        await run.finish()
        self._compare(counted)
        self.fresh.replace(self.path)
        self.of = self.table.transcript.records

    async def _write(self, reader):
        """Writes what comes, and gives the number of records that its last line counts, or None without that line."""
        end = b""
        with open(self.fresh, "wb") as file:
            while piece := await reader.read(PIECE):
                file.write(piece)
                end = (end + piece)[-LAST:]
            os.fchmod(file.fileno(), 0o644)
        try:
            return json.loads(end[end.rfind(b"\n", 0, -1) + 1:])["audited"] if end.endswith(b"}\n") else None
        except (ValueError, KeyError, TypeError):
            return None

    def _compare(self, counted):
        given = self.table.given()
        if counted < given:
            text = (f"the journal holds {counted} answers and {given} were given: it is an older copy, or a compacted one that "
                    f"{compacted.NAME} doesn't have. Put the last one back, or add the line, then remove this file")
            write_whole(self.stopped, text.encode() + b"\n")
            raise OlderJournal(f"{self.stopped}: {text}")
        if counted > given:
            self.table.say(f"report: {counted - given} records more than answers in the transcript")

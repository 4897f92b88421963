"""A run of the program: as a child, or as another user's process on the other side of a Unix socket.

Through a socket the door needs no right to the table and the journal, and that is how it is meant to be run. A child is
for trying it.
"""
import asyncio
import os
import pathlib
import select
import signal

from .faults import WORDS

FRONT = pathlib.Path(__file__).resolve().parent.parent
CLOSED = -1
FAREWELL = 30                       # seconds that a run has to end by itself once its input has ended


class Ended(Exception):
    """The program ended, or said what it can't have said. The text is for the operator alone: the program's own words may tell by how
    much a secret number was changed. Askers get the sentence for the cause."""

    def __init__(self, text, cause="other"):
        super().__init__(text)
        self.cause = cause


def cause_of(fault):
    """The cause of a fault: a program or a socket that can't be opened is one that can't be reached."""
    return fault.cause if isinstance(fault, Ended) else "gone"


def ended_by(complaint, code):
    """Why the program ended: the end of what it said, or how it ended, and what to do about it."""
    if code < 0:
        return Ended(f"the program was stopped by signal {-code}", "killed")
    said = complaint[-200:].decode("utf-8", "replace").strip() or f"the program ended with code {code}"
    known = WORDS["ended"].get(str(code))
    return Ended(said + (f" ({known})" if known else ""), str(code))


class Run:
    """One run with its input and output. `process` is None if the run is another user's."""

    def __init__(self, reader, writer, process=None):
        self.reader, self.writer, self.process = reader, writer, process
        self.input = self._own_input()

    def _own_input(self):
        """The number of the input, of our own: the loop closes its number once the run ends, and might give it to another
        connection while a thread writes."""
        try:
            return os.dup((self.writer.get_extra_info("pipe") or self.writer.get_extra_info("socket")).fileno())
        except (ValueError, OSError):
            return CLOSED

    def _close_input(self):
        if self.input != CLOSED:
            os.close(self.input)
            self.input = CLOSED

    def write(self, text, patience):
        """Writes all of a text, from whatever thread: the event loop may be busy just then. OSError if that fails."""
        text = memoryview(text)
        while text:
            try:
                text = text[os.write(self.input, text):]
            except BlockingIOError:
                if not select.select([], [self.input], [], patience)[1]:
                    raise OSError("the program takes no more input")

    async def why(self):
        """Why the run ended, once it has, as an Ended."""
        if not self.process:
            return Ended("the program is gone", "gone")
        complaint = await self.process.stderr.read()
        return ended_by(complaint, await self.process.wait())

    def kill(self):
        self._close_input()
        if self.process and self.process.returncode is None:
            self._stop()
        self.writer.close()

    def _stop(self):
        self.process.kill()

    async def finish(self):
        """Ends the input. The program answers what it has and ends by itself."""
        self._close_input()
        try:
            if self.writer.can_write_eof():
                self.writer.write_eof()
            await asyncio.wait_for(self._drain(), FAREWELL)
        except (asyncio.TimeoutError, OSError, RuntimeError):
            self.kill()
        if self.process:
            await self.process.wait()
        self.writer.close()

    async def _drain(self):
        while await self.reader.read(65536):
            pass


class ScriptRun(Run):
    """A run that a script started: the script removes its own files when it is stopped."""

    def _stop(self):
        try:
            os.killpg(self.process.pid, signal.SIGTERM)
        except ProcessLookupError:
            pass


class Child:
    """Starts runs as children in a folder; `explain` over a copy of the journal."""

    explains = True

    def __init__(self, auditor, folder):
        self.auditor, self.folder = auditor, folder

    async def open(self, command, *arguments):
        words, kind = [self.auditor, command, *arguments], Run
        if command == "explain":
            words, kind = ["sh", str(FRONT / "explain.sh"), ".", self.auditor], ScriptRun
        process = await asyncio.create_subprocess_exec(
            *words, cwd=self.folder, start_new_session=True, stdin=asyncio.subprocess.PIPE,
            stdout=asyncio.subprocess.PIPE, stderr=asyncio.subprocess.PIPE)
        return kind(process.stdout, process.stdin, process)


class Sockets:
    """Connects to sockets, one for each command, on whose other side another user starts the runs."""

    def __init__(self, serve, audit, explain):
        self.paths = {"serve": serve, "audit": audit, "explain": explain}

    @property
    def explains(self):
        return self.paths["explain"] is not None

    async def open(self, command, *_):
        reader, writer = await asyncio.open_unix_connection(self.paths[command])
        return Run(reader, writer)

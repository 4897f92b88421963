"""Tables, doors and a reader of journals for the tests. AUDITOR names the program, an absolute path.

The reader, and the answers that are due, are worked out here from the rows and the pages on formats, and share nothing
with the program or the door.
"""
import asyncio
import atexit
import contextlib
import csv
import json
import logging
import os
import pathlib
import random
import shutil
import signal
import socket
import subprocess
import sys
import tempfile
import time

import aiohttp

logging.disable(logging.WARNING)

HERE = pathlib.Path(__file__).resolve().parent
FRONT = HERE.parent
AWAY = json.loads((FRONT / "words.json").read_text())["away"]
DOOR = pathlib.Path(os.environ.get("DOOR", FRONT / "door.py"))
AUDITOR = os.environ.get("AUDITOR", str(FRONT.parent / "crates" / "auditor" / "out" / "auditor"))
SEED = int(os.environ.get("SEED", "1"))
NOBODY = 65534
PATIENCE = 120                      # seconds after which what a test waits for doesn't come any more; no test is to depend on it
HOLDERS = []                        # the sockets of `free_port`
COLUMNS = [{"name": "team", "is": "text"}, {"name": "k", "is": "number"},
           {"name": "salary", "is": "sum"}, {"name": "bonus", "is": "max"}]
TEAMS = ["QA", "OPS", "DEV", "Bob's"]
SECRETS = [("sum", "salary", 2), ("max", "bonus", 3)]


def line_of(kind, low, high):
    """A question over the rows with k from `low` to `high`."""
    question = {"ask": kind, "where": f"k >= {low} and k <= {high}"}
    if kind != "count":
        question["column"] = "bonus" if kind == "max" else "salary"
    return json.dumps(question).encode()


class Folder:
    """A table of random numbers in a fresh folder, with the public columns beside it, and the rows in memory."""

    def __init__(self, rows=200, seed=SEED, path=None, init=True, protect=()):
        chance = random.Random(seed)
        self.path = pathlib.Path(path or tempfile.mkdtemp(prefix="door-"))
        self.public = self.path / "public"
        self.public.mkdir(parents=True)
        self.rows = [(chance.choice(TEAMS), k, chance.randrange(20_000, 90_000), chance.randrange(60)) for k in range(rows)]
        schema = {"columns": COLUMNS, "protect": [{"column": "salary", "where": where} for where in protect]}
        for folder, width in ((self.path, 4), (self.public, 2)):
            (folder / "schema.json").write_text(json.dumps(schema if protect else {"columns": COLUMNS}))
            with open(folder / "table.csv", "w", newline="") as file:
                csv.writer(file).writerows([[c["name"] for c in COLUMNS[:width]], *[row[:width] for row in self.rows]])
        if init:
            subprocess.run([AUDITOR, "init"], cwd=self.path, check=True)
        atexit.register(self.remove)

    def remove(self):
        shutil.rmtree(self.path, ignore_errors=True)

    def inside(self, low, high):
        return [row for row in self.rows if low <= row[1] <= high]

    def due(self, kind, low, high):
        """The answer if the question is answered."""
        rows = self.inside(low, high)
        if kind == "count":
            return {"count": len(rows)}
        return {"sum": sum(row[2] for row in rows)} if kind == "sum" else {"max": max(row[3] for row in rows)}

    def draw(self, chance):
        """A random question: its kind, its bounds, its line."""
        low = chance.randrange(len(self.rows))
        high = chance.randrange(low, len(self.rows))
        kind = chance.choice(["sum", "sum", "max", "count"])
        return (kind, low, high), line_of(kind, low, high)

    def journal(self, name="answers.journal"):
        """The records by the page on formats: column, rows, answer."""
        data = (self.path / name).read_bytes()
        assert data[0] == 1 and data[1:8] == b"SQAJRNL" and data[8] == 1
        rows = int.from_bytes(data[9:11], "big")
        size, at, records, sets = 9 + (rows + 7) // 8, 20, [], {}
        while data[at] == 1:
            count, at = data[at + 1], at + 2
            if count == 0:                  # a growth: the number of rows from there on
                rows, at = int.from_bytes(data[at:at + 2], "big"), at + 2
                size = 9 + (rows + 7) // 8
            for record in (data[at + number * size:at + (number + 1) * size] for number in range(count)):
                if record[9:] not in sets:
                    bits = int.from_bytes(record[9:], "little")
                    sets[record[9:]] = frozenset(row for row in range(rows) if bits >> row & 1)
                records.append((record[0], sets[record[9:]], int.from_bytes(record[1:9], "big", signed=True)))
            at += count * size
        return records

    def transcript(self, torn=False):
        """The pairs, as bytes. Of a torn one, those that are whole."""
        lines = (self.public / "transcript.jsonl").read_bytes().split(b"\n")
        assert lines.pop() == b"" and len(lines) % 2 == 0 or torn
        return list(zip(lines[::2], lines[1::2]))

    def simulate(self):
        with open(self.public / "transcript.jsonl", "rb") as file:
            run = subprocess.run([AUDITOR, "simulate"], cwd=self.public, stdin=file, capture_output=True)
        return run.returncode, run.stderr.decode()

    def replay(self):
        """The replies of a fresh journal over the same table to the transcript's questions in its order."""
        with tempfile.TemporaryDirectory() as folder:
            for name in ("schema.json", "table.csv"):
                shutil.copy(self.path / name, folder)
            subprocess.run([AUDITOR, "init"], cwd=folder, check=True)
            questions = b"".join(line + b"\n" for line, _ in self.transcript())
            run = subprocess.run([AUDITOR, "serve", "--batch", "64"], cwd=folder, input=questions, capture_output=True)
            return run.stdout.split(b"\n")[:-1]

    def said(self):
        """What the door wrote on its standard error."""
        return (self.path / "door.err").read_text()


class Door:
    """A door's process over a folder, listening on a socket in it."""

    def __init__(self, folder, *words, user=None, auditor=AUDITOR, plain=False):
        self.folder, self.user = folder, user
        self.socket = str(folder.path / "door.sock")
        places = [] if plain else ["--folder", str(folder.path)]
        self.words = ["--auditor", auditor, *places, "--listen", "unix:" + self.socket, *map(str, words)]
        self.process = None
        atexit.register(self.end)

    def end(self):
        if self.process and self.process.poll() is None:
            self.process.kill()
            self.process.wait()
            self.kill_programs()            # a test may have left them stopped

    def start(self):
        with open(self.folder.path / "door.err", "ab") as errors:
            self.process = subprocess.Popen(
                [sys.executable, str(DOOR), *self.words], stderr=errors, user=self.user,
                extra_groups=[] if self.user else None, env={**os.environ, **slow_syncs()})
        return self

    def session(self):
        return aiohttp.ClientSession("http://door", connector=aiohttp.UnixConnector(self.socket, limit=0),
                                     timeout=aiohttp.ClientTimeout(120))

    async def ready(self, session, state="serving", path="/health", **headers):
        end = time.monotonic() + PATIENCE
        while time.monotonic() < end:
            with contextlib.suppress(aiohttp.ClientError, OSError):
                async with session.get(path, headers=headers) as response:
                    if (await response.json())["state"].startswith(state):
                        return
            await asyncio.sleep(0.02)
        raise AssertionError(f"the door isn't {state}: {self.folder.said()}")

    def programs(self):
        """The numbers of the processes that run `serve` in the folder, whoever started them."""
        found = []
        for process in pathlib.Path("/proc").glob("[0-9]*"):
            try:
                if b"\0serve\0" in (process / "cmdline").read_bytes() and os.readlink(process / "cwd") == str(self.folder.path):
                    found.append(int(process.name))
            except OSError:
                pass
        return found

    def signal_programs(self, how):
        """Sends them a signal, and gives the numbers of those that it reached."""
        reached = []
        for number in self.programs():
            with contextlib.suppress(ProcessLookupError):
                os.kill(number, how)
                reached.append(number)
        return reached

    def kill_programs(self):
        """Kills them, waits until they are gone, and gives how many there were."""
        killed = self.signal_programs(signal.SIGKILL)
        while not set(killed).isdisjoint(self.programs()):
            time.sleep(0.001)
        return len(killed)

    def stop(self, how=signal.SIGTERM):
        self.process.send_signal(how)
        return self.process.wait(PATIENCE)


def slow_syncs():
    """The environment in which each sync takes longer, if SLOW names slow_sync.so."""
    return {"LD_PRELOAD": os.environ["SLOW"]} if "SLOW" in os.environ else {}


def free_port(address="127.0.0.1"):
    """A port that nobody else is given until this process ends: a socket that doesn't listen has it, and lets a server share it."""
    holder = socket.socket()
    holder.setsockopt(socket.SOL_SOCKET, socket.SO_REUSEADDR, 1)
    holder.bind((address, 0))
    HOLDERS.append(holder)
    return holder.getsockname()[1]


async def ask(session, line, path="/ask", **headers):
    """Status and body."""
    headers = {"Content-Type": "application/json", **headers}
    async with session.post(path, data=line if isinstance(line, bytes) else line.encode(), headers=headers) as response:
        return response.status, await response.read()


async def health(session, path="/health"):
    async with session.get(path) as response:
        return await response.json()

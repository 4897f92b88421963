#!/usr/bin/python3
"""A front door for `auditor serve`: the questions of many people over HTTP, one run of the program for each table.

Nothing here is proved, and no secret depends on it: it reads schema.json and the public columns, writes question lines
into the program and reads reply lines out of it. Whatever it asks, in whatever order, the proof of the program holds.
A fault of the door can hand a reply to the wrong asker, lose one, or leave a gap in the transcript.
"""
import asyncio
import logging
import os
import pathlib
import signal
import sys

from doorway import settings as arguments

# What the arguments lack, and --help, is said without aiohttp.
SETTINGS = arguments.read() if __name__ == "__main__" else None
try:
    from aiohttp import web
    from aiohttp.http_exceptions import HttpProcessingError
except ModuleNotFoundError:
    sys.exit("door: aiohttp is missing: apt-get install --no-install-recommends python3-aiohttp, and run it with /usr/bin/python3")

from doorway.access import AccessLog
from doorway.askers import WRITE, Askers, Tokens
from doorway.gates import GatedRunner, Gates, most_connections, say_little
from doorway.first import First, ask_first
from doorway.groups import Groups
from doorway.handlers import Guard, TableHandlers, application
from doorway.least import LeastSize
from doorway.page import Page
from doorway.report import OlderJournal
from doorway.runs import Child, Sockets
from doorway.table import Table
from doorway.transcript import Damaged, Unwritten

HERE = pathlib.Path(__file__).resolve().parent


def make_table(name, places, settings):
    opener = Sockets(places.serve, places.audit, places.explain) if places.serve else Child(settings.auditor, places.folder)
    groups = Groups(opener, settings.batch, settings.run_limit, settings.twin)
    table = Table(name, groups, places, settings.auditor, settings.report_every)
    # Tests are less patient.
    groups.patience = settings.group_patience or groups.patience
    table.patience = settings.asker_patience or table.patience
    table.whys.patience = settings.explain_patience or table.whys.patience
    table.most_waiting = settings.waiting or table.most_waiting
    table.transcript.most = settings.denials_up_to or table.transcript.most
    return table


def make_handlers(table, settings):
    return TableHandlers(table, LeastSize(settings.least, table.ask) if settings.least else None)


def hosts_of(settings, port):
    """The names under which requests may come; all, if a socket of the file system is listened on and none is given."""
    hosts = set(settings.host)
    if not settings.listen.startswith("unix:"):
        address = settings.listen.rpartition(":")[0]
        hosts |= {f"{address}:{port}", f"localhost:{port}"}
    return hosts


async def listen(runner, where):
    """Starts to listen, and says where."""
    if where.startswith("unix:"):
        path = pathlib.Path(where[5:])
        if path.is_socket():                # of a door that was killed; its table is ours by now
            path.unlink()
        mask = os.umask(0o117)
        await web.UnixSite(runner, str(path)).start()
        os.umask(mask)
    else:
        address, _, port = where.rpartition(":")
        await web.TCPSite(runner, address.strip("[]"), int(port)).start()
    print("listening on", where, file=sys.stderr, flush=True)


async def keep(table, alone):
    """Serves a table. If its journal is an older copy it stops, and the door with it if it has no other table."""
    late = asyncio.ensure_future(table.turn_away_the_late())
    try:
        await table.serve()
    except OlderJournal as fault:
        table.say(fault)
        if alone:
            raise
        table.stop_for_good("older")
        await table.closing.wait()
    finally:
        late.cancel()


async def write_what_is_used(tokens):
    """Writes down what each asker has used, soon after it changes."""
    written = b""
    while True:
        await asyncio.sleep(WRITE)
        text = tokens.text()
        if text != written:
            await asyncio.to_thread(tokens.write, text)
            written = text


async def run(settings):
    tables = {name: make_table(name, places, settings) for name, places in settings.places.items()}
    page = Page(HERE / "page.html") if (HERE / "page.html").exists() else None
    handlers = {name: make_handlers(table, settings) for name, table in tables.items()}
    port = settings.listen.rpartition(":")[2]
    tokens = Tokens(settings.tokens) if settings.tokens else None
    gates = Gates(most_connections(settings.connections), settings.head_patience)
    askers = Askers(tokens, settings.proxy, settings.listen.startswith("unix:"))
    app = application(page, HERE, handlers, Guard(hosts_of(settings, port), askers, AccessLog(settings.log), gates))
    say_little(asyncio.get_running_loop())
    # Bodies come as they are sent: a small compressed one could be a large one.
    runner = GatedRunner(gates, app, access_log=None, auto_decompress=False)
    await runner.setup()
    firsts = [First(path.read_bytes(), handlers[name]) for name, path in settings.first.items()]
    if not firsts:
        await listen(runner, settings.listen)

    def stop():
        for table in tables.values():
            table.stop()
    for name in (signal.SIGTERM, signal.SIGINT):
        asyncio.get_running_loop().add_signal_handler(name, stop)
    counting = asyncio.ensure_future(write_what_is_used(tokens)) if tokens else None
    try:
        serving = asyncio.gather(*(keep(table, len(tables) == 1) for table in tables.values()))
        if firsts and await ask_first(firsts, serving):
            await listen(runner, settings.listen)
        await serving
        await asyncio.sleep(0.05)           # the last replies leave
    finally:
        for table in tables.values():
            table.groups.kill()
        if tokens:
            counting.cancel()
            tokens.write(tokens.text())
    await runner.cleanup()


def is_ours(record):
    """Whether a fault is to be logged: a stream that isn't HTTP is its sender's fault, and anybody could fill the log."""
    return not (record.exc_info and isinstance(record.exc_info[1], HttpProcessingError))


def main(settings):
    logging.getLogger("aiohttp.server").addFilter(is_ours)
    # A sync that has returned is to be seen soon, also while many requests are at work.
    sys.setswitchinterval(0.0005)
    try:
        asyncio.run(run(settings))
    except (Damaged, OlderJournal, Unwritten, ValueError, OSError) as fault:
        sys.exit(f"door: {fault}")


if __name__ == "__main__":
    main(SETTINGS)

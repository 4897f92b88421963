"""HTTP: what each request gets.

200 means that the program spoke: the body is its reply, byte for byte. What the door itself says is {"error": ".."} with
another status. No GET asks anything.
"""
import asyncio
import collections
import contextlib
import json
import os
import re
import time


from aiohttp import web
from aiohttp.http_exceptions import HttpProcessingError

from .askers import NOBODY
from .faults import Turned
from .hinting import Hints
from .interface import interface
from .lines import LONGEST, line_of
from .metrics import TYPE, Meter, text
from .near import Nears
from .periods import folder_of
from .totals import total

BODY_PATIENCE = 30                  # seconds that a body may take
PIECE = 1 << 20
JSON, JSONL, CSV = "application/json", "application/jsonl", "text/csv; charset=utf-8"
PERIOD_FILES = {"schema.json": JSON, "table.csv": CSV, "notes.json": JSON, "transcript.jsonl": JSONL, "report.jsonl": JSONL,
                "answers.journal": "application/octet-stream"}
SAFE = {"X-Content-Type-Options": "nosniff", "Cache-Control": "no-store"}
REPLY = {"Content-Type": JSON, **SAFE}


def error(turned):
    return web.json_response(turned.said, status=turned.status, headers={**SAFE, **turned.headers})


def said(value, status=200):
    return web.json_response(value, status=status, headers=SAFE)


class Guard:
    """Turns away what other names, other sites' pages and nobody that is known send, puts faults into words, and keeps the access log."""

    def __init__(self, hosts, askers, log, gates):
        self.hosts, self.askers, self.log, self.gates = hosts, askers, log, gates
        self.errors = collections.Counter()         # what the door itself said, by code

    def around(self, handler, is_open=False):
        """The handler with the guard before it. Where it is open no token is wanted."""
        async def guarded(request):
            request["asker"], request["line"] = NOBODY, b""
            with self.gates.at_work(request.transport):
                try:
                    response = await handler(self.admit(request, is_open))
                except Turned as turned:
                    response = error(turned)
                    self.errors[turned.code] += 1
            if request.method == "POST":
                self.log.write(request["asker"].name, request.path, request["line"], response.status, response.body)
            return response
        return guarded

    def admit(self, request, is_open):
        if self.hosts and request.host not in self.hosts:
            raise Turned("host")
        if request.method == "POST" and request.headers.get("Sec-Fetch-Site", "none") not in ("same-origin", "none"):
            raise Turned("site")
        if not is_open:
            request["asker"] = self.askers.of(request)
        return request


async def question_of(request):
    """The body as a question's line, whose bytes its asker has spent."""
    request["line"] = line = await _line_in(request)
    request["asker"].spend("bytes", len(line))
    return line


async def _line_in(request):
    kind = request.headers.get("Content-Type", "").partition(";")[0].strip().lower()
    if kind != JSON or request.headers.get("Content-Encoding", "identity") != "identity":
        raise Turned("type")
    try:
        if request.content.is_eof():
            return line_of(await request.read())
        async with asyncio.timeout(BODY_PATIENCE):
            return line_of(await request.read())
    except web.HTTPRequestEntityTooLarge:
        raise Turned("long")
    except TimeoutError:
        raise Turned("slow")
    except (ConnectionError, HttpProcessingError, web.RequestPayloadError):
        raise Turned("broken")


def reply(line):
    return web.Response(body=line + b"\n", headers=REPLY)


class TableHandlers:
    """The requests on one table."""

    def __init__(self, table, least):
        self.table, self.least = table, least
        self.nears, self.hints, self.meter = Nears(table, least), Hints(table.places), Meter()

    def routes(self, prefix):
        public = self.table.places.public
        return {
            ("POST", prefix + "/ask"): self.ask_request,
            ("POST", prefix + "/would"): self.would_request,
            ("POST", prefix + "/why"): self.why_request,
            ("POST", prefix + "/near"): self.near_request,
            ("POST", prefix + "/hint"): self.hint_request,
            ("GET", prefix + "/health"): self.health,
            ("GET", prefix + "/schema.json"): sender(public / "schema.json", JSON),
            ("GET", prefix + "/notes.json"): sender(public / "notes.json", JSON),
            ("GET", prefix + "/table.csv"): sender(public / "table.csv", CSV),
            ("GET", prefix + "/report.jsonl"): sender_of_whole(self.table.reports.path, JSONL),
            ("GET", prefix + "/transcript.jsonl"): self.transcript,
            ("GET", prefix + "/periods.json"): self.periods,
            ("GET", prefix + "/period.{period}/{file}"): self.period_file}

    async def _check_size(self, line):
        if self.least and not (await self.table.known(line))[1]:
            await self.least.check(line)

    async def ask(self, line, asker):
        began = time.monotonic()
        await self._check_size(line)
        said = await self.table.ask(line, asker)
        self.meter.count(said, began)
        return said

    async def verdict(self, line, asker):
        asker.spend("verdicts")
        await self._check_size(line)
        return await self.table.verdict(line, asker)

    async def why(self, line, asker):
        asker.spend("verdicts")
        await self._check_size(line)
        return await self.table.why(line, asker)

    async def ask_request(self, request):
        return reply(await self.ask(await question_of(request), request["asker"]))

    async def would_request(self, request):
        return reply(await self.verdict(await question_of(request), request["asker"]))

    async def why_request(self, request):
        return reply(await self.why(await question_of(request), request["asker"]))

    async def near_request(self, request):
        line, asker = await question_of(request), request["asker"]
        asker.spend("verdicts")
        return said(await self.nears.ask(line, asker))

    async def hint_request(self, request):
        return said(await self.hints.on(await question_of(request)))

    async def health(self, _):
        health = self.table.health()
        return said(health, 200 if health["state"] == "serving" else 503)

    async def periods(self, _):
        return said(list(range(1, self.table.period.number + 1)))

    async def period_file(self, request):
        """A file of a period, by which others check its transcript. That of the period that goes on is at its old address."""
        period, name = request.match_info["period"], request.match_info["file"]
        if name not in PERIOD_FILES or not re.fullmatch("[1-9][0-9]{0,8}", period, re.ASCII):
            raise Turned("address")
        return await sender(folder_of(self.table.places.keep, int(period)) / name, PERIOD_FILES[name])(request)

    async def transcript(self, request):
        """As far as it is synced. What is being written isn't shown."""
        transcript, at = self.table.transcript, 0
        size = transcript.size
        response = web.StreamResponse(headers={"Content-Type": JSONL, "Content-Length": str(size), **SAFE})
        await response.prepare(request)
        with contextlib.suppress(ConnectionError):
            while at < size and request.method != "HEAD":
                piece = transcript.file.read(min(size - at, PIECE), at)
                at += len(piece)
                await response.write(piece)
        return response


class RootHandlers:
    """The requests that are of no one table: the page, the list of tables, the health of all, a total."""

    def __init__(self, page, here, tables, errors):
        self.page, self.here, self.tables, self.errors = page, here, tables, errors
        self.names = [name for name in tables if name]

    def routes(self):
        words = lister(askers_words(self.here / "words.json"))
        routes = {("GET", "/"): self.start_page, ("GET", "/words.json"): words, ("GET", "/tables.json"): lister(self.names),
                  ("GET", "/metrics"): self.metrics, ("GET", "/openapi.json"): lister(interface(self.here / "openapi.json", self.names))}
        if self.names:
            routes |= {("GET", "/health"): self.health, ("POST", "/total"): self.total}
        for name in self.names:
            routes |= {("GET", f"/{name}"): redirect(f"{name}/"), ("GET", f"/{name}/"): self.start_page,
                       ("GET", f"/{name}/words.json"): words, ("GET", f"/{name}/tables.json"): lister([])}
        return routes

    async def start_page(self, _):
        if self.page is None:
            raise Turned("missing")
        return web.Response(body=self.page.text, content_type="text/html", charset="utf-8",
                            headers={"Content-Security-Policy": self.page.policy, **SAFE})

    async def health(self, _):
        health = {name: handlers.table.health() for name, handlers in self.tables.items()}
        well = all(one["state"] == "serving" for one in health.values())
        return said({"state": "serving" if well else "not all tables are served", "tables": health}, 200 if well else 503)

    async def metrics(self, _):
        tables = {name: (handlers.table.health(), handlers.meter) for name, handlers in self.tables.items()}
        return web.Response(text=text(tables, self.errors), headers={"Content-Type": TYPE, **SAFE})

    async def total(self, request):
        return said(await total(self.tables, await question_of(request), request["asker"]))


def sender(path, kind):
    """Sends a file, if it is there."""
    async def send(_):
        if not os.path.isfile(path):
            raise Turned("missing")
        return web.FileResponse(path, headers={"Content-Type": kind, **SAFE})
    return send


def whole(path):
    """The bytes of a file, and when it was last changed."""
    with open(path, "rb") as file:
        return file.read(), os.fstat(file.fileno()).st_mtime


def sender_of_whole(path, kind):
    """Sends a file whose place another one may take at any time: it is read in one piece, so that the size of one never goes with the
    bytes of the other."""
    async def send(_):
        try:
            body, changed = await asyncio.to_thread(whole, path)
        except FileNotFoundError:
            raise Turned("missing")
        response = web.Response(body=body, headers={"Content-Type": kind, **SAFE})
        response.last_modified = changed
        return response
    return send


def lister(value):
    async def send(_):
        return said(value)
    return send


def askers_words(path):
    """The sentences without those that tell an operator what to do."""
    return {group: words for group, words in json.loads(path.read_text(encoding="utf-8")).items() if group != "ended"}


def redirect(to):
    async def send(_):
        return web.Response(status=308, headers={"Location": to, **SAFE})
    return send


def unknown(paths):
    """Whatever has no handler."""
    async def send(request):
        if request.path in paths:
            raise Turned("method")
        raise Turned("address")
    return send


def application(page, here, tables, guard):
    """`here` is the folder of the page's sentences and of the interface's description. `tables` are the handlers by the name of the table, the
    only one without a name at the root. What watches the door needs no token for its health and its counts."""
    routes = {}
    for name, handlers in tables.items():
        routes |= handlers.routes(f"/{name}" if name else "")
    routes |= RootHandlers(page, here, tables, guard.errors).routes()
    app = web.Application(client_max_size=LONGEST + 3)      # a body as long as that is refused
    for (method, path), handler in routes.items():
        for one in ("GET", "HEAD") if method == "GET" else (method,):
            app.router.add_route(one, path, guard.around(handler, is_open=path.endswith(("/health", "/metrics"))))
    app.router.add_route("*", "/{rest:.*}", guard.around(unknown({path for _, path in routes})))
    return app

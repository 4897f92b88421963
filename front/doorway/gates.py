"""A gate before each connection: how long a request's head may take, and how many connections there may be.

A connection whose next request isn't there whole some seconds after its first byte is closed. If there are as many connections as may be, the one
that has waited longest for a request makes room for the next, so that slow ones keep nobody out.
"""
import asyncio
import collections
import contextlib
import errno
import resource
import sys
import time

from aiohttp import web

HEAD_PATIENCE = 10                  # seconds that the head of a request may take
BUSY_PATIENCE = 120                 # seconds after which a request has its reply, unless its sender doesn't read it
WANTED = 8192                       # descriptors that the door asks the system for
RESERVED = 256                      # of them those that aren't for connections: files, programs, and connections that come at once
EXHAUSTED = (errno.EMFILE, errno.ENFILE, errno.ENOBUFS, errno.ENOMEM)
SAID = 60                           # seconds in which that is said once


class Gate(asyncio.Protocol):
    """One connection. What comes goes on to aiohttp's own protocol."""

    def __init__(self, gates, inner):
        self.gates, self.inner = gates, inner
        self.transport = self.timer = None

    def connection_made(self, transport):
        self.transport = transport
        self.inner.connection_made(transport)
        self.gates.opened(self)
        self.await_head()

    def data_received(self, data):
        if self.timer is None and self not in self.gates.busy:
            self.await_head()
        self.inner.data_received(data)

    def await_head(self):
        self.timer = asyncio.get_running_loop().call_later(self.gates.patience, self.transport.abort)

    def end_wait(self):
        if self.timer:
            self.timer.cancel()
            self.timer = None

    def eof_received(self):
        return self.inner.eof_received()

    def connection_lost(self, fault):
        self.end_wait()
        self.gates.closed(self)
        self.inner.connection_lost(fault)

    def pause_writing(self):
        self.inner.pause_writing()

    def resume_writing(self):
        self.inner.resume_writing()


class Gates:
    """All connections: those that wait for a request and those at work, each since when. It makes their protocols."""

    def __init__(self, most, patience=None):
        self.server, self.most, self.patience = None, most, patience or HEAD_PATIENCE
        self.waiting, self.busy = collections.OrderedDict(), collections.OrderedDict()
        self.by_transport = {}

    def __call__(self):
        return Gate(self, self.server())

    async def shutdown(self, timeout=None):
        await self.server.shutdown(timeout)

    def opened(self, gate):
        if len(self.by_transport) >= self.most:
            self._make_room(gate)
        self.by_transport[gate.transport] = gate
        self.waiting[gate] = time.monotonic()

    def _make_room(self, gate):
        """Closes the connection that has waited longest, or one whose sender doesn't read, or the new one."""
        oldest = next(iter(self.waiting), None)
        if oldest is None:
            first, since = next(iter(self.busy.items()), (gate, 0))
            oldest = first if time.monotonic() - since > BUSY_PATIENCE else gate
        oldest.transport.abort()
        self.closed(oldest)

    def closed(self, gate):
        self.by_transport.pop(gate.transport, None)
        self.waiting.pop(gate, None)
        self.busy.pop(gate, None)

    @contextlib.contextmanager
    def at_work(self, transport):
        """While a request that has come whole gets its reply."""
        gate = self.by_transport.get(transport)
        if gate is None:                    # it was closed meanwhile
            yield
            return
        gate.end_wait()
        self.waiting.pop(gate, None)
        self.busy[gate] = time.monotonic()
        try:
            yield
        finally:
            if self.busy.pop(gate, None):
                self.waiting[gate] = time.monotonic()


class GatedRunner(web.AppRunner):
    """An application's runner whose connections go through gates."""

    def __init__(self, gates, app, **arguments):
        super().__init__(app, **arguments)
        self.gates = gates

    async def setup(self):
        await super().setup()
        self.gates.server = super().server

    @property
    def server(self):
        return self.gates if super().server else None


def most_connections(wanted):
    """How many connections there may be, by the descriptors that the system gives."""
    soft, hard = resource.getrlimit(resource.RLIMIT_NOFILE)
    if soft < min(WANTED, hard):
        with contextlib.suppress(OSError, ValueError):
            resource.setrlimit(resource.RLIMIT_NOFILE, (min(WANTED, hard), hard))
            soft = min(WANTED, hard)
    most = max(soft - RESERVED, 1)
    return min(most, wanted) if wanted else most


def say_little(loop):
    """A connection that the system has no descriptor for is said once a minute, and not with a traceback each."""
    last = 0

    def handle(loop, context):
        nonlocal last
        fault = context.get("exception")
        if not isinstance(fault, OSError) or fault.errno not in EXHAUSTED:
            loop.default_exception_handler(context)
        elif time.monotonic() - last > SAID or not last:
            last = time.monotonic()
            print(f"connections: {fault.strerror}", file=sys.stderr, flush=True)
    loop.set_exception_handler(handle)

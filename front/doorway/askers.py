"""Who asks: by a token that the operator gave out, by the login of a proxy, or by an address; and how much each may ask.

Tokens stand in a file of the operator's, as sums: `tokens.py` writes it. Without a file everybody may ask. What was used of each limit stands
beside it, in FILE.used, and is written at most once a second: a kill may forget the last second of it.
"""
import base64
import contextlib
import datetime
import hashlib
import json
import pathlib
import re
import sys
import time
from dataclasses import dataclass, field

from .faults import Turned
from .files import write_whole
from .lines import RELEASED

NAME = re.compile(r"[A-Za-z0-9_][A-Za-z0-9_.@-]{0,63}")
# What is counted: new answers in all, those of them that don't follow from earlier ones, and within a day new answers, verdicts with reasons,
# and bytes of questions.
LIMITS = {"records": "records of the history", "new": "answers that tell something new",
          "answers": "new answers of today", "verdicts": "verdicts of today", "bytes": "bytes of today"}
DAILY = ("answers", "verdicts", "bytes")
LOOK = WRITE = 1                    # seconds after which the file is looked at again, and what was used is written
LOGIN = {"WWW-Authenticate": 'Basic realm="auditor", charset="UTF-8"'}


def sum_of(token):
    return hashlib.sha256(token.encode("utf-8", "surrogatepass")).hexdigest()


def today():
    return datetime.datetime.now(datetime.timezone.utc).date().isoformat()


def until_tomorrow():
    """The seconds until the counts of a day begin anew, at midnight of UTC."""
    return 86_400 - int(time.time()) % 86_400


@dataclass
class Asker:
    """Someone who asks. `name` is for the operator's log, `place` is what tells her from others, None if nothing does."""

    name: str
    place: str | None
    limits: dict = field(default_factory=dict)
    used: dict = field(default_factory=dict)

    def spend(self, what, count=1):
        """Counts something, or turns her away if she has used it up."""
        most = self.limits.get(what)
        if most is not None and self.used.get(what, 0) + count > most:
            raise Turned("used", again=until_tomorrow() if what in DAILY else 0, what=LIMITS[what], most=most)
        self.used[what] = self.used.get(what, 0) + count

    def counts_new(self):
        """Whether she has a limit of answers that tell something new."""
        return "new" in self.limits

    def begin_answer(self, new=False):
        """Counts a question that may become a new answer, before it is asked: askers at once don't get past a limit."""
        spent = []
        try:
            for what in ("records", "answers", *(["new"] if new else [])):
                self.spend(what)
                spent.append(what)
        except Turned:
            for what in spent:
                self.used[what] -= 1
            raise

    def end_answer(self, reply=b"", new=False):
        """Takes that back if it didn't."""
        if not reply.startswith(RELEASED):
            self.used["records"] -= 1
            if new:
                self.used["new"] -= 1
            self.used["answers"] = max(self.used["answers"] - 1, 0)         # a new day may have begun


NOBODY = Asker("", None)


class Tokens:
    """The askers that a file names, and what each has used."""

    def __init__(self, path):
        self.path, self.used_path = pathlib.Path(path), pathlib.Path(f"{path}.used")
        self.seen, self.looked, self.askers = None, 0, {}
        self.day, self.used = today(), {}
        self._read_used()
        self._look()

    def asker(self, authorization):
        """The asker whose token this is. 401 without one."""
        self._look()
        name, token = token_in(authorization)
        asker = self.askers.get(sum_of(token)) if token else None
        if asker is None or name not in ("", asker.name):
            raise Turned("token", headers=LOGIN)
        return asker

    def _look(self):
        """Reads the file anew if it was changed, and begins a new day."""
        now = time.monotonic()
        if self.seen is not None and now < self.looked + LOOK:
            return
        self.looked = now
        state = self.path.stat() if self.path.exists() or self.seen is None else None
        seen = state and (state.st_mtime_ns, state.st_ino, state.st_size)
        if self.seen != (seen or ()):
            self._read(seen)
        if self.day != today():
            self.day = today()
            for used in self.used.values():
                used.update(dict.fromkeys(DAILY, 0))

    def _read(self, seen):
        """A file that is gone names nobody. One that isn't right is said, and changes nothing."""
        try:
            entries = read_tokens(self.path) if seen else {}
        except ValueError as fault:
            if self.seen is None:
                raise
            print(f"tokens: {fault}", file=sys.stderr, flush=True)
        else:
            self.askers = {entry["sha256"]: Asker(name, f"token {name}", limits_of(entry), self.used.setdefault(name, {}))
                           for name, entry in entries.items()}
        self.seen = seen or ()

    def _read_used(self):
        with contextlib.suppress(FileNotFoundError):
            kept = json.loads(self.used_path.read_text())
            self.used = {name: {what: count for what, count in used.items() if what not in DAILY or kept["day"] == self.day}
                         for name, used in kept["used"].items()}

    def text(self):
        """What was used, as it is written."""
        return json.dumps({"day": self.day, "used": self.used}, indent=1).encode() + b"\n"

    def write(self, text):
        write_whole(self.used_path, text, 0o600)


def token_in(authorization):
    """Name and token of a header: a bearer's token has no name with it."""
    kind, _, text = authorization.partition(" ")
    if kind.lower() == "bearer":
        return "", text.strip()
    if kind.lower() == "basic":
        with contextlib.suppress(ValueError):
            name, _, token = base64.b64decode(text.strip(), validate=True).decode().partition(":")
            return name, token
    return "", ""


def limits_of(entry):
    return {what: entry[what] for what in LIMITS if entry.get(what) is not None}


def read_tokens(path):
    """The entries of a file by their names. ValueError says what is wrong with it."""
    entries = json.loads(pathlib.Path(path).read_text())
    if not isinstance(entries, dict):
        raise ValueError(f"{path} has no object of names")
    for name, entry in entries.items():
        if not NAME.fullmatch(name) or not isinstance(entry, dict) or not re.fullmatch("[0-9a-f]{64}", str(entry.get("sha256"))):
            raise ValueError(f"{path}: {name!r} isn't a name with a sum, as tokens.py writes it")
        for what in LIMITS:
            if type(entry.get(what, 0)) is not int or entry.get(what, 0) < 0:
                raise ValueError(f"{path}: {what} of {name} isn't a whole number")
    return entries


class Askers:
    """Tells who sends a request. A proxy on the other side of a socket, or at an address of `proxies`, says whose it hands on."""

    def __init__(self, tokens=None, proxies=(), behind_socket=False):
        self.tokens, self.proxies, self.behind_socket = tokens, set(proxies), behind_socket

    def of(self, request):
        if self.tokens:
            return self.tokens.asker(request.headers.get("Authorization", ""))
        address, login = request.remote, ""
        if self.behind_socket or address in self.proxies:
            login = request.headers.get("X-Remote-User", "")
            address = request.headers.get("X-Real-IP", "")
        if login:
            return Asker(login, f"login {login}")
        return Asker("", f"address {address}") if address else NOBODY

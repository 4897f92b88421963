"""The operator's list of who asked what, and of what kind the reply was. It has no answer, and nobody else may read it."""
import datetime
import json
import os
import sys


class AccessLog:
    """A file to which a line is appended for each question. It isn't synced. Without a path nothing is written."""

    def __init__(self, path=None):
        self.file, self.failed = None, False
        if path:
            self.file = os.open(path, os.O_WRONLY | os.O_APPEND | os.O_CREAT | os.O_CLOEXEC, 0o600)
            os.fchmod(self.file, 0o600)

    def write(self, name, path, question, status, body):
        if self.file is None:
            return
        when = datetime.datetime.now(datetime.timezone.utc).isoformat(timespec="seconds")
        line = json.dumps({"time": when, "name": name, "path": path, "question": question.decode("utf-8", "replace"),
                           "reply": kind_of(status, body)})
        try:
            os.write(self.file, line.encode() + b"\n")
            self.failed = False
        except OSError as fault:
            if not self.failed:             # once, and not for each question
                print(f"access log: {fault}", file=sys.stderr, flush=True)
            self.failed = True


def kind_of(status, body):
    """What kind of reply it was, without its number: `sum`, `denied unsafe`, `refused where`, `verdict released`, `error 503`."""
    try:
        reply = json.loads(body)
        kind = next(iter(reply))
    except (ValueError, TypeError, StopIteration):
        return f"status {status}"
    if status != 200:
        return f"{kind} {status}"
    return f"{kind} {reply[kind]}" if kind in ("denied", "refused", "verdict") else kind

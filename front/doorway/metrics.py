"""`/metrics`: what the door counts, in Prometheus' text form. Nothing in it says who asked or what."""
import bisect
import collections
import time

from .lines import RELEASED

BOUNDS = (0.005, 0.01, 0.025, 0.05, 0.1, 0.25, 0.5, 1, 2.5, 5, 10, 30, 60)      # seconds
KINDS = ((RELEASED, "answered"), ((b'{"denied"',), "denied"), ((b'{"count"',), "counted"), ((b"",), "refused"))
TYPE = "text/plain; version=0.0.4; charset=utf-8"
# Of what a table's health has: the name, the kind, and what it is.
OF_HEALTH = {
    "records": ("auditor_records", "gauge", "Answers in the history."),
    "room": ("auditor_records_left", "gauge", "Answers for which the history has room."),
    "repeats": ("auditor_known_total", "counter", "Questions that were answered before."),
    "restarts": ("auditor_restarts_total", "counter", "Ends of the program."),
    "waiting": ("auditor_waiting", "gauge", "Askers who wait."),
    "transcript": ("auditor_transcript_bytes", "gauge", "Length of the transcript."),
}


class Meter:
    """The replies of one table by their kind, and how long they took."""

    def __init__(self):
        self.replies, self.slots = collections.Counter(), [0] * (len(BOUNDS) + 1)
        self.seconds = 0.0

    def count(self, reply, began):
        """Counts the program's reply to a question that came at `began` of the monotonic clock."""
        took = time.monotonic() - began
        self.replies[next(kind for starts, kind in KINDS if reply.startswith(starts))] += 1
        self.slots[bisect.bisect_left(BOUNDS, took)] += 1
        self.seconds += took


def text(tables, errors):
    """All lines. `tables` are pairs of health and meter by name, `errors` counts what the door itself said by code."""
    lines = family("auditor_replies_total", "counter", "Replies of the program, by kind.", [
        (labels(table=name, kind=kind), meter.replies[kind]) for name, (_, meter) in tables.items() for _, kind in KINDS])
    lines += family("auditor_serving", "gauge", "Whether the table is served.", [
        (labels(table=name), int(health["state"] == "serving")) for name, (health, _) in tables.items()])
    for key, (name, kind, what) in OF_HEALTH.items():
        lines += family(name, kind, what, [(labels(table=table), health[key]) for table, (health, _) in tables.items()])
    lines += family("auditor_errors_total", "counter", "What the door itself said, by code.", [
        (labels(code=code), count) for code, count in sorted(errors.items())])
    lines += ["# HELP auditor_ask_seconds Seconds from a question to its reply.", "# TYPE auditor_ask_seconds histogram"]
    for name, (_, meter) in tables.items():
        lines += histogram(name, meter)
    return "\n".join(lines) + "\n"


def family(name, kind, what, samples):
    return [f"# HELP {name} {what}", f"# TYPE {name} {kind}", *(f"{name}{label} {value}" for label, value in samples)]


def histogram(table, meter):
    counted = 0
    for bound, slot in zip((*BOUNDS, "+Inf"), meter.slots):
        counted += slot
        yield f"auditor_ask_seconds_bucket{labels(table=table, le=bound)} {counted}"
    yield f"auditor_ask_seconds_sum{labels(table=table)} {meter.seconds:.6f}"
    yield f"auditor_ask_seconds_count{labels(table=table)} {counted}"


def labels(**named):
    """The labels, without one that is empty: a table without a name has none. Names of tables have no mark in them."""
    said = ",".join(f'{name}="{value}"' for name, value in named.items() if value != "")
    return f"{{{said}}}" if said else ""

"""A table that got rows at its end: the transcript goes on over the longer one, as the journal does after `auditor grow`.

Each answer is kept with the question that means the same rows there: the old condition, and that a public number isn't greater
than it was in the earlier rows. `prepare.py` makes such a number, wave. A question that no new row satisfies stays byte for byte.

Denials aren't kept: they made no record, and one that a protected total was the reason for need not be due over more rows. The
earlier transcript stays beside the new one under its number of rows. What a stop leaves in between is done at the next start.
"""
import contextlib
import csv
import hashlib
import io
import itertools
import json
from dataclasses import dataclass

from preparing.conditions import Wrong, read_condition

from .files import write_whole
from .lines import LONGEST, RELEASED, read_question
from .transcript import Damaged, Transcript, is_of, mark_of, read_public


@dataclass(frozen=True)
class Growth:
    """How many rows there were, the rows that came, and the public number that is greater in each of these than `most`."""

    rows: int
    added: list
    kinds: dict
    name: str
    most: int

    def question(self, line):
        """The line that means over the longer table what this one meant before, or None if the program wouldn't read it."""
        question = read_question(line)
        where = question.get("where") if question else None
        if not isinstance(where, str):
            return line
        longer = f"({where}) and {self.name} <= {self.most}"
        try:
            if not any(map(read_condition(where, self.kinds), self.added)):
                return line
            read_condition(longer, self.kinds)
        except Wrong:
            return None
        line = json.dumps({**question, "where": longer}, ensure_ascii=False).encode("utf-8", "surrogatepass")
        return line if len(line) <= LONGEST else None

    def transcript(self, text):
        """The answered pairs of a transcript over the longer table, and how many of them couldn't be kept."""
        lines = text.split(b"\n")
        pairs = [(self.question(line), reply) for line, reply in zip(lines[::2], lines[1::2]) if reply.startswith(RELEASED)]
        kept = [pair for pair in pairs if pair[0]]
        return b"".join(line + b"\n" + reply + b"\n" for line, reply in kept), len(pairs) - len(kept)


def carry_over(public, keep, say):
    """Makes the transcript one over the public columns as they are now, if these got rows. It says what it did."""
    growth = growth_of(public, keep)
    if growth is None:
        return
    with contextlib.closing(Transcript(keep)) as old:
        text, lost = growth.transcript(old.text())
        left = [line for line in map(growth.question, old.left) if line]
        if text != old.text():
            beside = keep_beside(keep, growth.rows, old.text())
            old.forget()
            write_whole(keep / "transcript.jsonl", text)
            say(f"the table got {len(growth.added)} rows: the transcript goes on with {growth.name} <= {growth.most} in the "
                f"earlier questions, and {beside.name} is what it was before")
    if lost:
        say(f"the transcript has a gap: with {growth.name} in them the questions of {lost} of its answers would be too long or too deep")
    with contextlib.closing(Transcript(keep)) as fresh:
        fresh.hold(left)
    (keep / "report.jsonl").unlink(missing_ok=True)
    write_whole(keep / "table.sha256", mark_of(*read_public(public)))


def growth_of(public, keep):
    """What came to the table that the transcript was made over, or None if it is this one or no front of it."""
    schema, table = read_public(public)
    mark = keep / "table.sha256"
    if not mark.exists() or is_of(mark, schema, table):
        return None
    size = front_of(mark.read_bytes(), schema, table)
    if size is None:
        return None
    kinds = {column["name"]: column["is"] for column in json.loads(schema)["columns"] if column["is"] in ("text", "number")}
    rows, before = rows_of(table, kinds), len(rows_of(table[:size], kinds))
    if len(rows) == before:
        return None
    name, most = number_apart(rows[:before], rows[before:], kinds)
    return Growth(before, rows[before:], kinds, name, most)


def front_of(mark, schema, table):
    """The length of the front of a table, ended with a line, that a mark was made of, or None."""
    sum_of, size = hashlib.sha256(schema), 0
    for line in table.splitlines(keepends=True):
        bare = line.rstrip(b"\r\n")
        for end in (bare, line):
            so_far = sum_of.copy()
            so_far.update(end)
            if so_far.hexdigest().encode() == mark.strip():
                return size + len(end)
        sum_of.update(line)
        size += len(line)
    return None


def rows_of(table, kinds):
    """A dict of the public values of each row."""
    records = [record for record in csv.reader(io.StringIO(table.decode("utf-8-sig"), newline="")) if record]
    return [{name: int(cell) if kinds.get(name) == "number" else cell for name, cell in zip(records[0], record)} for record in records[1:]]


def number_apart(before, added, kinds):
    """A public number that is greater in every new row than in any old one, wave if it is, and the greatest of the old ones."""
    for name in sorted(kinds, key=lambda name: name != "wave"):
        if kinds[name] == "number" and max(row[name] for row in before) < min(row[name] for row in added):
            return name, max(row[name] for row in before)
    raise Damaged("rows were added to the public table.csv, and no public number, as wave, is greater in each of them than in all "
                  "earlier rows: the transcript can't go on over them. Give the new rows such a number, or put a file renewed beside "
                  "transcript.jsonl, and another transcript begins")


def keep_beside(keep, rows, text):
    """Writes what the transcript was into a file named by its number of rows, and returns its path. Another such file stays."""
    names = itertools.chain([f"transcript.{rows}.jsonl"], (f"transcript.{rows}.{number}.jsonl" for number in itertools.count(2)))
    for beside in map(keep.joinpath, names):
        if not beside.exists():
            write_whole(beside, text)
        if beside.read_bytes() == text:
            return beside

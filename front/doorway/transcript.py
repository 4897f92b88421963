"""What was asked and replied, and what is with the program just now: two files that outlive every stop.

`transcript.jsonl` has each question that was decided and, after it, its reply; `auditor simulate` takes it as it is. Counts
and refusals make no record and follow from the public columns: they are left out. A denial that was the last reply to its question
isn't written again, and none is once the transcript is very long: a denial changes no later decision.

`waiting.jsonl` has the questions of the group that is with the program. Its first line has the transcript's length, the
length of what follows, and a sum over all of that.

Promised, if a disk keeps what it says that it synced: after any stop the transcript holds every answer for which `add` has
returned, and every denial until it is very long, and `left` every question for which `hold` has returned and `add` has not, unless
its pair is in the transcript.
"""
import array
import bisect
import collections
import hashlib
import json
import pathlib

from .files import SyncedFile, sync_folder, write_whole
from .lines import DECIDED, DECISION, RELEASED

PIECE = 1 << 20                     # bytes that are read at a time
MOST = 500 << 20                    # bytes from which on denials aren't written down: with 65,536 answers `simulate` still takes all of it
REMEMBERED = 16_384                 # denials of which it is remembered that they stand there


class Damaged(Exception):
    """The files don't go together, or another door has them."""


class Unwritten(Exception):
    """A file took no more. What was told before is safe, and the door can't go on."""


class Transcript:
    """`key` gives what a line asks, so that the same question is known however it is written."""

    def __init__(self, folder, file=SyncedFile, key=lambda line: line):
        folder = pathlib.Path(folder)
        self.file = file(folder / "transcript.jsonl", 0o644)
        if not self.file.lock():
            raise Damaged(f"another door keeps {folder / 'transcript.jsonl'}")
        self.waiting = file(folder / "waiting.jsonl", 0o600)
        sync_folder(folder)
        self.key, self.most = key, MOST
        self.answers = {}                   # released answers by what they answer
        self.denials = collections.OrderedDict()        # the last denials by what they deny
        self.denied = collections.deque(maxlen=REMEMBERED)      # the places of those in the file
        self.begins, self.ends = array.array("Q"), array.array("Q")     # where the released pairs stand, those in a row as one
        self.records = self.unwritten = 0
        self.size = 0                       # as far as it is synced
        self.left = self._recover()         # questions whose reply nobody saw

    def text(self):
        return self.file.read(self.size, 0)

    def released(self, at=0, end=None):
        """The pairs that were released from a place in the file on, up to another one, in pieces."""
        end = self.size if end is None else end
        for number in range(bisect.bisect_right(self.ends, at), len(self.ends)):
            yield from self._pieces(max(at, self.begins[number]), min(self.ends[number], end))

    def _pieces(self, at, end):
        while at < end:
            piece = self.file.read(min(end - at, PIECE), at)
            at += len(piece)
            yield piece

    def hold(self, lines):
        """Writes down and syncs which questions leave for the program."""
        body = b"".join(line + b"\n" for line in lines)
        head = {"at": self.size, "bytes": len(body), "sum": _sum(self.size, body)}
        _write(self.waiting, "waiting.jsonl", json.dumps(head).encode() + b"\n" + body, 0)

    def forget(self):
        """Takes the list of the waiting away: it is of this transcript, and another one is to take its place."""
        self.waiting.truncate(0)
        self.waiting.sync()

    def add(self, pairs):
        """Writes down and syncs the pairs that were decided and don't stand there yet. Only then may anybody be told."""
        decided = [(line, reply) for line, reply in pairs if reply.startswith(DECIDED) and not self._stands(line, reply)]
        if not decided:
            return
        text = b"".join(line + b"\n" + reply + b"\n" for line, reply in decided)
        _write(self.file, "transcript.jsonl", text, self.size)
        for line, reply in decided:
            self._pass(line, reply)
            self._know(line, reply)

    def _stands(self, line, reply):
        """Whether a denial needn't be written down: it was the last reply to that question, or the transcript is full of denials."""
        if reply.startswith(RELEASED):
            return False
        if self.denials.get(self.key(line)) == reply:
            return True
        full = self.size >= self.most
        self.unwritten += full
        return full

    def index(self):
        """Learns what the pairs of the file answer and deny. It may take a second or two, and may run in a thread of its own."""
        for line, reply in pairs_of(self.released()):
            self.answers.setdefault(self.key(line), reply)
        for at, end in self.denied:
            for pair in pairs_of(self._pieces(at, end)):
                self._know(*pair)
        self.denied.clear()

    def close(self):
        self.file.close()
        self.waiting.close()

    def _know(self, line, reply):
        key = self.key(line)
        if reply.startswith(RELEASED):
            self.answers[key] = reply
            self.denials.pop(key, None)
            return
        self.denials[key] = reply
        self.denials.move_to_end(key)
        if len(self.denials) > REMEMBERED:
            self.denials.popitem(last=False)

    def _pass(self, line, reply):
        """Takes a pair at the end of what is synced into account, and gives its place. It may run in another thread: the length comes
        last, so that who reads up to it finds every answer before it."""
        at = self.size
        end = at + len(line) + len(reply) + 2
        if reply.startswith(RELEASED):
            self.records += 1
            if self.ends and self.ends[-1] == at:
                self.ends[-1] = end
            else:
                self.begins.append(at)
                self.ends.append(end)
        self.size = end
        return at

    def _find(self, line, reply):
        """Takes a pair of the file into account; what it answers or denies is worked out later."""
        at = self._pass(line, reply)
        if not reply.startswith(RELEASED):
            self.denied.append((at, self.size))

    def _recover(self):
        size = self.file.size()
        held = self._read_waiting()
        # Without a whole list of the waiting its group never left, so the transcript ends with a pair.
        at, lines = held if held else (size, [])
        if size < at:
            raise Damaged("transcript.jsonl is shorter than waiting.jsonl says: put the right one back")
        for pair in pairs_of(self._pieces(0, at)):
            self._find(*pair)
        left = self._match(self.file.read(size - at, at), lines)
        self.file.truncate(self.size)
        self.file.sync()
        return left

    def _match(self, tail, lines):
        """Keeps the pairs of the last group that are whole, and gives the questions that have none.

        The pairs stand in the order of the questions, but for those that were put off when they were asked again. So what
        was passed over comes last.
        """
        passed, parts = [], tail.split(b"\n")[:-1]
        for line, reply in zip(parts[::2], parts[1::2]):
            if not DECISION.fullmatch(reply):
                break
            if line in lines:
                place = lines.index(line)
                passed, lines = passed + lines[:place], lines[place + 1:]
            elif line in passed:
                passed.remove(line)
            else:
                break
            self._find(line, reply)
        return lines + passed

    def _read_waiting(self):
        head, _, body = self.waiting.read(self.waiting.size(), 0).partition(b"\n")
        try:
            head = json.loads(head)
            at, body = head["at"], body[:head["bytes"]]
            if len(body) == head["bytes"] and head["sum"] == _sum(at, body):
                return at, body.split(b"\n")[:-1]
        except (ValueError, KeyError, TypeError, RecursionError):
            pass
        return None


def pairs_of(pieces):
    """The questions with their replies in a text that comes in pieces and ends with a pair."""
    rest, lines = b"", []
    for piece in pieces:
        *fresh, rest = (rest + piece).split(b"\n")
        lines += fresh
        yield from zip(lines[::2], lines[1::2])
        lines = lines[len(lines) // 2 * 2:]
    if rest or lines:
        raise Damaged("transcript.jsonl is no list of questions and replies: put the right one back")


def _write(file, name, text, at):
    try:
        file.write(text, at)
        file.sync()
    except OSError as fault:
        raise Unwritten(f"{name}: {fault}")


def _sum(at, body):
    """Over the length as well: a torn first line with another length and the old sum must not pass."""
    return hashlib.sha256(b"%d\n" % at + body).hexdigest()


def read_public(public):
    """The bytes of the schema and of the public columns."""
    return [(public / name).read_bytes() for name in ("schema.json", "table.csv")]


def mark_of(schema, table):
    """The sum that stands for a schema and public columns."""
    return hashlib.sha256(schema + table).hexdigest().encode() + b"\n"


def is_of(mark, schema, table):
    """Whether a file has the sum of this schema and these public columns."""
    return mark.read_bytes().strip() == mark_of(schema, table).strip()


def check_table(public, keep):
    """Refuses another table than the one that the transcript was made over: its answers are handed out again, and
    `simulate` reads it with these public columns."""
    now, mark = read_public(public), keep / "table.sha256"
    if not mark.exists():
        write_whole(mark, mark_of(*now))
    elif not is_of(mark, *now):
        raise Damaged("schema.json or the public table.csv isn't the one that transcript.jsonl was made over: put the right "
                      f"ones back. If the table was renewed put a file renewed into {keep}, and another transcript begins. If only totals to "
                      f"protect were added, and auditor simulate ends with 0 over the transcript, remove {mark}")

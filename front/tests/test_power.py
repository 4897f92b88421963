"""A power cut at each call of the two files: what wasn't synced is there, in part, as zeros, or not at all."""
import itertools
import pathlib
import random
import sys
import tempfile
import unittest

from kit import FRONT, SEED

sys.path.insert(0, str(FRONT))
from doorway.transcript import Transcript  # noqa: E402

FAST = "/dev/shm" if pathlib.Path("/dev/shm").is_dir() else None
FILES = ("transcript.jsonl", "waiting.jsonl")


class Disk:
    """Two files in memory, each as it is and as it is safe, and a list of what was done."""

    def __init__(self):
        self.now = {name: b"" for name in FILES}
        self.safe = dict(self.now)
        self.loose = {name: [] for name in FILES}          # what was done since the last sync
        self.moments = []                                   # a picture of the disk before each call

    def file(self, path, mode):
        return OpenFile(self, pathlib.Path(path).name)

    def picture(self, told):
        self.moments.append(({name: (self.safe[name], list(self.loose[name])) for name in FILES}, list(told)))


class OpenFile:
    """The methods of SyncedFile over a Disk."""

    def __init__(self, disk, name):
        self.disk, self.name = disk, name

    def lock(self):
        return True

    def size(self):
        return len(self.disk.now[self.name])

    def read(self, size, at):
        return self.disk.now[self.name][at:at + size]

    def write(self, text, at):
        self._do(("write", text, at))

    def truncate(self, size):
        self._do(("truncate", size))

    def sync(self):
        self.disk.picture(self.disk.told)
        self.disk.safe[self.name] = self.disk.now[self.name]
        self.disk.loose[self.name] = []
        self.disk.picture(self.disk.told)

    def _do(self, call):
        self.disk.picture(self.disk.told)
        self.disk.loose[self.name].append(call)
        self.disk.now[self.name] = after(self.disk.now[self.name], call)
        self.disk.picture(self.disk.told)


def after(text, call):
    if call[0] == "truncate":
        return text[:call[1]].ljust(call[1], b"\0")
    _, new, at = call
    return text[:at].ljust(at, b"\0") + new + text[at + len(new):]


def parts_of(call):
    """What may be left of a call that wasn't synced: all of it, a front, a back, or both, and zeros for what isn't there."""
    if call[0] == "truncate":
        return [call]
    _, text, at = call
    fronts = [text[:size] for size in range(1, len(text), max(len(text) // 9, 1))]
    zeroed = [front + bytes(len(text) - len(front)) for front in fronts]
    backs = [bytes(len(front)) + text[len(front):] for front in fronts]
    holes = [front + b"\0" + text[len(front) + 1:] for front in fronts]
    return [("write", part, at) for part in (text, bytes(len(text)), *fronts, *zeroed, *backs, *holes)]


def left_of(safe, loose):
    """Each content that a file may have after a cut."""
    yield safe
    for count, call in enumerate(loose):
        before = safe
        for earlier in loose[:count]:
            before = after(before, earlier)
        for part in parts_of(call):
            yield after(before, part)
    # What wasn't synced may also be kept in another order.
    if len(loose) > 1:
        yield after(safe, loose[-1])


def reply_of(line):
    """A reply for each question: some answers, some denials, and a count, which isn't written down."""
    number = int(line[1:])
    return [b'{"sum":%d}', b'{"max":%d}', b'{"denied":"unsafe"}', b'{"count":%d}'][number % 4].replace(b"%d", b"%d" % number)


def is_count(line):
    return reply_of(line).startswith(b'{"count"')


def is_torn(text):
    return b"\0" in text or not text.endswith(b"\n")


class Play:
    """Questions through a transcript on a Disk, with what was told and what was with the program at each moment."""

    def __init__(self, contents, number):
        self.disk, self.number, self.sent = Disk(), number, []
        self.disk.told = []
        self.disk.now = dict(contents)
        self.disk.safe = dict(contents)
        with tempfile.TemporaryDirectory(dir=FAST) as folder:
            self.transcript = Transcript(folder, self.disk.file)

    def group(self, lines):
        self.transcript.hold(lines)
        self.sent.append((len(self.disk.moments), lines))
        self.add(lines)

    def add(self, lines):
        pairs = [(line, reply_of(line)) for line in lines]
        self.transcript.add(pairs)
        self.disk.told.extend(pair for pair in pairs if not is_count(pair[0]))

    def groups(self, sizes, chance):
        for size in sizes:
            lines = [b"q%d" % (self.number + place) for place in range(size)]
            chance.shuffle(lines)
            self.number += size
            self.group(lines)

    def recover(self, chance):
        """As the door does after a stop: some questions in their order, then the others."""
        left = self.transcript.left
        self.sent.append((0, left))
        due = [line for line in left if chance.random() < 0.6]
        for line in [*due, *(line for line in left if line not in due)]:
            self.add([line])

    def images(self):
        """Each content of the two files after a cut, with what had been told and sent by then."""
        for moment, (state, told) in enumerate(self.disk.moments):
            sent = [line for since, lines in self.sent if since <= moment for line in lines]
            for contents in itertools.product(*(sorted(set(left_of(*state[name]))) for name in FILES)):
                yield dict(zip(FILES, contents)), told, sent


class PowerCuts(unittest.TestCase):
    def test_what_was_told_is_there_after_a_power_cut_at_any_call(self):
        chance = random.Random(SEED)
        first, images, torn = Play({name: b"" for name in FILES}, 0), 0, 0
        first.groups((1, 3, 2, 5, 1, 4), chance)
        for contents, told, sent in first.images():
            self.check(contents, told, sent)
            images += 1
            torn += is_torn(contents["transcript.jsonl"])
            if torn % 10 == 1 and is_torn(contents["transcript.jsonl"]) or images % 200 == 0:
                images += self.cut_again(contents, told, first.number, chance)
        self.assertGreater(images, 1000)
        print(f"test_power: {images} images of the two files", file=sys.stderr)

    def cut_again(self, contents, told, number, chance):
        """Goes on from an image, asks what is left and more, and cuts the power once more."""
        second = Play(contents, number)
        second.disk.told.extend(told)
        second.recover(chance)
        second.groups((2, 1), chance)
        count = 0
        for count, (later, told, sent) in enumerate(second.images(), 1):
            self.check(later, told, sent)
        return count

    def check(self, contents, told, sent):
        disk = Disk()
        disk.told, disk.now, disk.safe = [], dict(contents), dict(contents)
        with tempfile.TemporaryDirectory(dir=FAST) as folder:
            transcript = Transcript(folder, disk.file)
        lines = transcript.text().split(b"\n")[:-1]
        pairs = list(zip(lines[::2], lines[1::2]))
        self.assertEqual(pairs, [(line, reply_of(line)) for line, _ in pairs])
        self.assertEqual(len(set(pairs)), len(pairs))
        self.assertLessEqual(set(told), set(pairs))
        # A question that left is in the transcript, or is asked again, or was a count, on which nothing depends.
        known = {line for line, _ in pairs} | set(transcript.left)
        self.assertEqual([line for line in sent if line not in known and not is_count(line)], [])
        self.assertFalse({line for line, _ in pairs} & set(transcript.left))


if __name__ == "__main__":
    unittest.main()

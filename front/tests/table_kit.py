"""Folders for the tests of prepare.py and ask.py, and both scripts called with what they say caught. AUDITOR names the program."""

import contextlib
import csv
import io
import json
import os
import pathlib
import shutil
import sys
import tempfile
import unittest

HERE = pathlib.Path(__file__).resolve().parent
FRONT = HERE.parent
sys.path.insert(0, str(FRONT))

import prepare  # noqa: E402
from preparing import limits  # noqa: E402

# Choices for a table without limits, and for one without ranges and totals besides.
WITHOUT_LIMITS = tuple(f"{key}=none" for key in limits.LIMITS)
PLAIN = ("protect=none", "range=none", *WITHOUT_LIMITS)
AUDITOR = os.environ.get("AUDITOR") or shutil.which("auditor")
needs_program = unittest.skipUnless(AUDITOR, "AUDITOR names no program")


def said_by(call, words):
    """The status of a script's main, and all that it printed."""
    said = io.StringIO()
    with contextlib.redirect_stdout(said), contextlib.redirect_stderr(said):
        status = call([str(word) for word in words])
    return status, said.getvalue()


class TableTest(unittest.TestCase):
    """A test with a fresh folder, in which a CSV file is looked at, chosen for and made into a table."""

    def setUp(self):
        self.folder = pathlib.Path(tempfile.mkdtemp(prefix="tables-"))
        self.addCleanup(shutil.rmtree, self.folder)
        self.file, self.choices, self.out = (self.folder / name for name in ("t.csv", "t.choices.json", "out"))

    def prepare(self, *words):
        return said_by(prepare.main, words)

    def look(self, text, *options, encoding="utf-8"):
        """Looks at a file with this text, or these bytes. Few tests are of who asks: all askers are outside, until one chooses otherwise."""
        self.file.write_bytes(text if isinstance(text, bytes) else text.encode(encoding))
        found = self.prepare("look", self.file, *options)
        if self.choices.exists():
            self.choose("askers=outside")
        return found

    def chosen(self):
        return json.loads(self.choices.read_text(encoding="utf-8"))

    def column(self, name):
        return next(column for column in self.chosen()["columns"] if column["name"] == name)

    def choose(self, *words):
        return self.prepare("choose", self.choices, *words)

    def make(self):
        return self.prepare("make", self.file, self.choices, self.out)

    def made(self, text, *words):
        """What is said of a table made from the text with these choices; it has to succeed."""
        for status, said in (self.look(text), self.choose(*PLAIN, *words), self.make()):
            self.assertEqual(status, 0, said)
        return said

    def refused(self, text, *words):
        """What is said if the text with these choices can't be made into a table; nothing may be left of it."""
        status, said = self.look(text)
        self.assertEqual(status, 0, said)
        status, said = self.choose(*PLAIN, *words)
        before = self.names()
        if status == 0:
            status, said = self.make()
        self.assertEqual(status, 1, said)
        self.assertEqual(self.names(), before)
        return said

    def names(self):
        """Every file and folder that there is."""
        return sorted(str(path.relative_to(self.folder)) for path in self.folder.rglob("*"))

    def table(self, where=""):
        """The rows of a written table, its header first."""
        with open(self.out / where / "table.csv", encoding="utf-8", newline="") as file:
            return list(csv.reader(file))

"""A compacted journal in the journal's place: the door goes on with it if it is told how many records were left out."""
import json
import pathlib
import shutil
import subprocess
import sys
import tempfile
import unittest

from case import DoorCase
from kit import AUDITOR, FRONT, ask, health, line_of

sys.path.insert(0, str(FRONT))
from doorway.compacted import left_out  # noqa: E402
from doorway.transcript import Damaged  # noqa: E402


class LeftOut(unittest.TestCase):
    """The file alone."""

    def setUp(self):
        self.keep = pathlib.Path(tempfile.mkdtemp(prefix="keep-"))
        self.addCleanup(shutil.rmtree, self.keep)

    def write(self, text):
        (self.keep / "compacted.jsonl").write_text(text)

    def test_nothing_is_left_out_if_nothing_was_compacted(self):
        self.assertEqual(left_out(self.keep), 0)
        self.write("\n")
        self.assertEqual(left_out(self.keep), 0)

    def test_each_line_counts(self):
        self.write('{"records":2,"kept":1}\n\n{"records":65536,"kept":900}\n{"kept":7,"records":7}')
        self.assertEqual(left_out(self.keep), 1 + 64636)

    def test_another_line_is_named(self):
        for text in ("2 1", "[2,1]", '{"records":2}', '{"records":1,"kept":2}', '{"records":2.0,"kept":1}', '{"records":true,"kept":false}',
                     '{"records":2,"kept":-1}', "\xff"):
            with self.subTest(text):
                self.write('{"records":2,"kept":1}\n' + text)
                with self.assertRaises(Damaged) as raised:
                    left_out(self.keep)
                self.assertIn("compacted.jsonl, line 2: ", str(raised.exception))


class Compacted(DoorCase):
    """Three sums, of which the third is that of the first two: the journal keeps two of them."""

    SUMS = [(0, 99), (100, 199), (0, 199)]
    MORE = [(50, 149), (20, 179)]
    REPORTS = ["--report-every", "0.1"]

    async def ask_sums(self):
        """Asks the three sums and ends the door."""
        self.door.start()
        async with self.door.session() as session:
            await self.door.ready(session)
            for low, high in self.SUMS:
                _, reply = await ask(session, line_of("sum", low, high))
                self.assertEqual(json.loads(reply), self.folder.due("sum", low, high))
        self.assertEqual(self.door.stop(), 0)
        self.assertEqual(len(self.folder.journal()), 3)

    def compact(self):
        """Puts a compacted journal in the journal's place, and gives the line that was printed."""
        run = subprocess.run([AUDITOR, "compact"], cwd=self.folder.path, capture_output=True, check=True)
        (self.folder.path / "answers.spare").rename(self.folder.path / "answers.journal")
        self.assertEqual(len(self.folder.journal()), 2)
        return run.stdout

    async def test_the_door_goes_on_with_the_line_that_was_printed(self):
        self.door.words += self.REPORTS
        await self.ask_sums()
        line = self.compact()
        self.assertEqual(line, b'{"records":3,"kept":2}\n')
        (self.folder.public / "compacted.jsonl").write_bytes(line)
        self.door.start()
        async with self.door.session() as session:
            await self.door.ready(session)
            self.assertEqual((await health(session))["records"], 2)
            self.assertEqual((await health(session))["room"], 65_534)
            for asked in self.SUMS + self.MORE:
                _, reply = await ask(session, line_of("sum", *asked))
                self.assertEqual(json.loads(reply), self.folder.due("sum", *asked))
            await self.until(lambda: self.audited() == 4)
        self.assertEqual(self.door.stop(), 0)
        self.assertFalse((self.folder.public / "stopped.txt").exists())
        self.assertEqual(self.folder.simulate(), (0, ""))

    async def test_without_the_line_it_is_taken_for_an_older_copy(self):
        await self.ask_sums()
        self.compact()
        self.door.start()
        async with self.door.session() as session:
            await self.door.ready(session)
            await ask(session, line_of("sum", 50, 149))
        self.assertEqual(self.door.stop(), 0)
        self.door.words += self.REPORTS
        self.door.start()
        await self.ends()
        self.assertIn("the journal holds 3 answers and 4 were given: it is an older copy, or a compacted one that compacted.jsonl doesn't have",
                      (self.folder.public / "stopped.txt").read_text())

    def audited(self):
        """How many records the last whole report is over."""
        path = self.folder.public / "report.jsonl"
        return json.loads(path.read_bytes().splitlines()[-1])["audited"] if path.exists() else 0


if __name__ == "__main__":
    unittest.main()

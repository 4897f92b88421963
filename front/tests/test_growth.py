"""A table that gets rows at its end: what becomes of the transcript, and of a door that is started over the longer table."""
import contextlib
import csv
import json
import os
import pathlib
import random
import shutil
import subprocess
import sys
import tempfile
import unittest
from unittest import mock

from case import DoorCase
from kit import AUDITOR, AWAY, FRONT, SEED, TEAMS, ask, health, line_of

sys.path.insert(0, str(FRONT))
from doorway import files, growth  # noqa: E402
from doorway.growth import carry_over, growth_of  # noqa: E402
from doorway.transcript import Damaged, Transcript, check_table  # noqa: E402

COLUMNS = [{"name": "team", "is": "text"}, {"name": "age", "is": "number"}, {"name": "wave", "is": "number"}, {"name": "pay", "is": "sum"}]
SCHEMA = json.dumps({"columns": COLUMNS})
OLD = "team,age,wave\nQA,30,1\nOPS,41,1\nQA,52,1\n"
NEW = OLD + "DEV,33,2\nQA,60,2\n"


def asked(where, ask="sum", **more):
    return json.dumps({"ask": ask, "column": "pay", "where": where, **more}).encode()


# Questions with what was said, and what stands in the transcript over the longer table: as before, or with the new condition.
PAIRS = [
    (asked("all"), b'{"sum":700}', asked("(all) and wave <= 1")),
    (asked("age = 41"), b'{"denied":"unsafe"}', None),
    (asked("age > 30 and age < 55"), b'{"num":2,"den":1}', asked("(age > 30 and age < 55) and wave <= 1")),
    (asked("age in (30, 41)"), b'{"sum":5}', asked("age in (30, 41)")),
    (asked("team = 'OPS' or team = 'QA'", user="Zoë"), b'{"sum":-700}', asked("(team = 'OPS' or team = 'QA') and wave <= 1", user="Zoë")),
    (asked("wave = 1"), b'{"denied":"wide"}', None),
    (asked("wave=1"), b'{"sum":700}', asked("wave=1")),
]


def text_of(pairs):
    return b"".join(line + b"\n" + reply + b"\n" for line, reply in pairs)


class Carried(unittest.TestCase):
    """The files alone, without a program."""

    def setUp(self):
        self.keep = pathlib.Path(tempfile.mkdtemp(prefix="keep-"))
        self.addCleanup(shutil.rmtree, self.keep)
        self.said = []
        (self.keep / "schema.json").write_text(SCHEMA)
        self.write_table(OLD)
        check_table(self.keep, self.keep)

    def write_table(self, text):
        (self.keep / "table.csv").write_bytes(text if isinstance(text, bytes) else text.encode())

    def hold(self, pairs, waiting=()):
        with contextlib.closing(Transcript(self.keep)) as transcript:
            transcript.hold([line for line, _ in pairs])
            transcript.add(pairs)
            transcript.hold(list(waiting))

    def carry(self):
        carry_over(self.keep, self.keep, self.said.append)

    def left(self):
        """What is asked again, and the transcript's text."""
        with contextlib.closing(Transcript(self.keep)) as transcript:
            return transcript.left, transcript.text()

    def due(self):
        """The transcript of PAIRS over the longer table, read as JSON: blanks within a line don't matter."""
        return [(json.loads(line), reply) for _, reply, line in PAIRS if line]

    def pairs(self, text):
        lines = text.split(b"\n")
        return [(json.loads(line), reply) for line, reply in zip(lines[::2], lines[1::2])]

    def test_each_answer_is_kept_with_the_question_that_means_its_rows(self):
        self.hold([pair[:2] for pair in PAIRS])
        before = (self.keep / "transcript.jsonl").read_bytes()
        self.write_table(NEW)
        self.carry()
        self.assertEqual(self.pairs(self.left()[1]), self.due())
        self.assertIn(PAIRS[3][0] + b"\n" + PAIRS[3][1], self.left()[1])
        self.assertEqual((self.keep / "transcript.3.jsonl").read_bytes(), before)
        self.assertIn("the table got 2 rows: the transcript goes on with wave <= 1", self.said[0])
        check_table(self.keep, self.keep)

    def test_the_same_table_and_another_one_are_no_growth(self):
        self.hold([PAIRS[0][:2]])
        for text in (OLD, OLD + "\n\n", OLD.replace("41", "42"), NEW.replace("41", "42"), OLD[:-len("QA,52,1\n")], "team,age,wave\n",
                     NEW.replace("OPS,41,1\nQA,52,1", "QA,52,1\nOPS,41,1")):
            with self.subTest(text):
                self.write_table(text)
                self.assertIsNone(growth_of(self.keep, self.keep))
        (self.keep / "schema.json").write_text(SCHEMA + " ")
        self.write_table(NEW)
        self.assertIsNone(growth_of(self.keep, self.keep))
        self.carry()
        self.assertEqual(self.left()[1], text_of([PAIRS[0][:2]]))
        with self.assertRaises(Damaged):
            check_table(self.keep, self.keep)

    def test_every_line_end_is_seen_to_go_on(self):
        for old, new in ((OLD[:-1], NEW), (OLD.replace("\n", "\r\n"), NEW.replace("\n", "\r\n")), (OLD.replace("\n", "\r"), NEW.replace("\n", "\r")),
                         (OLD.replace("OPS", '"O\nS"'), NEW.replace("OPS", '"O\nS"')), ("\ufeff" + OLD, "\ufeff" + NEW[:-1])):
            with self.subTest(old):
                (self.keep / "table.sha256").unlink()
                self.write_table(old)
                check_table(self.keep, self.keep)
                self.write_table(new)
                found = growth_of(self.keep, self.keep)
                self.assertEqual((found.rows, len(found.added), found.name, found.most), (3, 2, "wave", 1))

    def test_wave_comes_first_and_any_public_number_will_do(self):
        for added, name, most in (("DEV,60,2\n", "wave", 1), ("DEV,60,1\n", "age", 52), ("DEV,53,0\nDEV,99,0\n", "age", 52)):
            self.write_table(OLD + added)
            found = growth_of(self.keep, self.keep)
            self.assertEqual((found.name, found.most), (name, most))
        for added in ("DEV,52,1\n", "DEV,60,2\nDEV,33,1\n"):
            self.write_table(OLD + added)
            with self.assertRaisesRegex(Damaged, "no public number, as wave, is greater in each of them than in all earlier rows"):
                growth_of(self.keep, self.keep)

    def test_what_was_with_the_program_is_asked_again_over_its_own_rows(self):
        strange = [b"x", b"[" * 5000, b'{"ask":"sum","where":5}', b'{"ask":"sum","column":"pay","where":"age = 41","user":"\\ud800"}']
        wrong = [b'{"ask":"count","where":"all or"}', b'{"ask":"sum","column":"pay","where":"team = \'\\ud800\' or x"}']
        self.hold([PAIRS[0][:2]], [asked("age < 99"), asked("age = 41"), *strange, *wrong, asked("all", user="\ud800")])
        self.write_table(NEW)
        self.carry()
        first, *left, last = self.left()[0]
        self.assertEqual(json.loads(first)["where"], "(age < 99) and wave <= 1")
        self.assertEqual(left, [asked("age = 41"), *strange])
        self.assertIn(b'"where": "(all) and wave <= 1"', last)

    def test_a_question_that_the_program_wouldnt_read_any_more_is_left_out_and_said(self):
        for where in ("all" + " " * (8192 - len(asked("all"))), "(" * 64 + "all" + ")" * 64, " or ".join(["all"] * 256)):
            with self.subTest(where[:9]):
                self.tearDown()
                self.doCleanups()
                self.setUp()
                self.hold([(asked(where), b'{"sum":900}'), PAIRS[0][:2], (asked("(" * 63 + "all" + ")" * 63), b'{"sum":700}')])
                self.write_table(NEW)
                self.carry()
                self.assertEqual(len(self.pairs(self.left()[1])), 2)
                self.assertIn("the transcript has a gap: with wave in them the questions of 1 of its answers would be too long or too deep", self.said)

    def test_two_growths_leave_two_transcripts_beside(self):
        self.hold([PAIRS[0][:2]])
        self.write_table(NEW)
        self.carry()
        self.hold([(asked("all"), b'{"sum":900}')])
        self.write_table(NEW + "DEV,33,3\n")
        self.carry()
        self.assertEqual([line["where"] for line, _ in self.pairs(self.left()[1])], ["(all) and wave <= 1", "(all) and wave <= 2"])
        self.assertEqual(sorted(path.name for path in self.keep.glob("transcript.*.jsonl")), ["transcript.3.jsonl", "transcript.5.jsonl"])

    def test_another_file_of_that_name_stays(self):
        (self.keep / "transcript.3.jsonl").write_text("mine\n")
        self.hold([PAIRS[0][:2]])
        self.write_table(NEW)
        self.carry()
        self.assertEqual((self.keep / "transcript.3.jsonl").read_text(), "mine\n")
        self.assertEqual((self.keep / "transcript.3.2.jsonl").read_bytes(), text_of([PAIRS[0][:2]]))

    def test_a_report_over_fewer_rows_is_removed(self):
        (self.keep / "report.jsonl").write_text("{}\n")
        self.write_table(NEW)
        self.carry()
        self.assertFalse((self.keep / "report.jsonl").exists())

    def test_a_second_door_changes_nothing(self):
        self.hold([PAIRS[0][:2]])
        self.write_table(NEW)
        with contextlib.closing(Transcript(self.keep)) as first:
            with self.assertRaisesRegex(Damaged, "another door keeps"):
                self.carry()
            self.assertEqual(first.text(), text_of([PAIRS[0][:2]]))
        self.assertEqual((self.keep / "transcript.jsonl").read_bytes(), text_of([PAIRS[0][:2]]))

    def test_a_stop_at_any_step_is_made_good_at_the_next_start(self):
        steps = ("doorway.growth.write_whole", "doorway.growth.Transcript.hold", "doorway.growth.Transcript.forget",
                 "doorway.growth.Transcript", "doorway.files.sync_folder")
        for step in steps:
            for number in range(3):
                with self.subTest(step=step, number=number):
                    self.tearDown()
                    self.doCleanups()
                    self.setUp()
                    self.stopped_at(step, number)

    def stopped_at(self, step, number):
        """Carries over with the call of that number failing, and then again without a fault."""
        self.hold([pair[:2] for pair in PAIRS], [asked("age < 99")])
        before = (self.keep / "transcript.jsonl").read_bytes()
        self.write_table(NEW)
        name = step.rsplit(".", 1)[-1]
        true, calls = getattr(files if ".files." in step else Transcript if ".Transcript." in step else growth, name), []

        def fails(*words, **named):
            calls.append(words)
            if len(calls) > number:
                raise KeyboardInterrupt
            return true(*words, **named)

        with mock.patch(step, fails):
            try:
                self.carry()
            except KeyboardInterrupt:
                pass
        self.carry()
        left, text = self.left()
        self.assertEqual(self.pairs(text), self.due())
        self.assertIn([json.loads(line)["where"] for line in left], (["(age < 99) and wave <= 1"], []))
        self.assertEqual([path.read_bytes() for path in self.keep.glob("transcript.*.jsonl")], [before])
        check_table(self.keep, self.keep)


class Grown(DoorCase):
    """Doors over a table that gets rows between two of them."""

    rows = 60

    def setUp(self):
        super().setUp()
        self.chance = random.Random(f"{SEED} {self.id()}")

    def add_rows(self, count):
        """Adds rows to both tables, with k going on."""
        rows = [(self.chance.choice(TEAMS), len(self.folder.rows) + more, self.chance.randrange(90_000), self.chance.randrange(60))
                for more in range(count)]
        self.folder.rows += rows
        for folder, width in ((self.folder.path, 4), (self.folder.public, 2)):
            with open(folder / "table.csv", "a", newline="") as file:
                csv.writer(file).writerows(row[:width] for row in rows)

    def grow(self, rows):
        """Makes the journal go on over the longer table, by `auditor grow`. A program that has no such command stands in for it
        with a journal in which each earlier answer is asked again over its own rows, the first `rows`."""
        run = subprocess.run([AUDITOR, "grow"], cwd=self.folder.path, capture_output=True)
        while run.returncode == 6:          # the door has the journal open just then
            run = subprocess.run([AUDITOR, "grow"], cwd=self.folder.path, capture_output=True)
        if run.returncode != 2:
            self.assertEqual((run.returncode, run.stdout, run.stderr), (0, b"", b""))
            return
        answered = [(json.loads(line), reply) for line, reply in self.before if b"denied" not in reply]
        for question, _ in answered:
            question["where"] = f"({question['where']}) and k < {rows}"
        lines = "".join(json.dumps(question) + "\n" for question, _ in answered)
        with tempfile.TemporaryDirectory() as folder:
            for name in ("schema.json", "table.csv"):
                shutil.copy(self.folder.path / name, folder)
            subprocess.run([AUDITOR, "init"], cwd=folder, check=True)
            run = subprocess.run([AUDITOR, "serve"], cwd=folder, input=lines.encode(), capture_output=True, check=True)
            os.replace(folder + "/answers.journal", self.folder.path / "answers.journal")
        self.assertEqual(run.stdout.split(b"\n")[:-1], [reply for _, reply in answered])

    async def asks(self, session, count, most):
        """Asks questions that reach beyond the rows that there are."""
        for _ in range(count):
            low = self.chance.randrange(len(self.folder.rows))
            question = (self.chance.choice(["sum", "sum", "max"]), low, self.chance.randrange(low, most))
            await self.ask(session, question, line_of(*question))

    def test_the_kit_reads_a_journal_that_grew(self):
        text = ("01 5351414a524e4c 01 0006 02 0102000000000000"      # six rows, a column of sums and one of maxima
                "01 01 00 000000000000012c 03"                       # 300 over rows 0 and 1
                "01 00 0009"                                         # nine rows
                "01 02 01 0000000000000009 ff01 00 fffffffffffffff6 0001 00")
        (self.folder.path / "answers.journal").write_bytes(bytes.fromhex(text))
        self.assertEqual(self.folder.journal(), [(0, {0, 1}, 300), (1, set(range(9)), 9), (0, {8}, -10)])

    async def test_a_door_over_the_longer_table_goes_on_with_what_was_answered(self):
        self.door.start()
        async with self.door.session() as session:
            await self.door.ready(session)
            await self.asks(session, 40, 120)
            self.assertEqual(self.door.stop(), 0)
            self.check_all()
            self.before, self.told = self.folder.transcript(), []
            answered = [(line, reply) for line, reply in self.before if b"denied" not in reply]
            self.add_rows(12)
            self.grow(60)
            self.door.start()
            await self.door.ready(session)
            self.assertEqual((await health(session))["records"], len(answered))
            # What was answered is there under its own rows, and comes from the transcript.
            carried = self.folder.transcript()
            self.assertEqual([reply for _, reply in carried], [reply for _, reply in answered])
            for (line, reply), (old, _) in zip(carried, answered):
                where, before = json.loads(line)["where"], json.loads(old)["where"]
                self.assertIn(where, (before, f"({before}) and k <= 59"))
                self.assertEqual((await ask(session, line)), (200, reply + b"\n"))
            self.assertTrue(any(line != old for (line, _), (old, _) in zip(carried, answered)))
            self.assertEqual((await health(session))["asked"], 0)
            # A difference between an old answer and a new one would be the new row's number.
            for high, due in ((500, "released"), (59, "released"), (60, "unsafe")):
                line = line_of("sum", 0, high)
                status, verdict = await ask(session, line, "/would")
                self.assertEqual((status, json.loads(verdict)["verdict"]), (200, due))
                _, reply = await self.ask(session, ("sum", 0, high), line)
                self.assertEqual(b"denied" in reply, due == "unsafe")
            await self.asks(session, 40, 120)
        self.end_and_check()
        self.assertEqual(len((self.folder.public / "transcript.60.jsonl").read_bytes().splitlines()), 2 * len(self.before))

    async def test_until_the_journal_has_grown_the_door_says_what_to_run(self):
        self.door.start()
        async with self.door.session() as session:
            await self.door.ready(session)
            await self.asks(session, 10, 120)
            self.assertEqual(self.door.stop(), 0)
            self.before, self.told = self.folder.transcript(), []
            self.add_rows(3)
            self.door.start()
            await self.door.ready(session, "stopped")
            self.assertEqual((await health(session))["state"], f"stopped: {AWAY['10']}")
            self.assertRegex(self.folder.said(), r"journal is of another table: rows 60, now 63 \(.*run auditor grow")
            self.grow(60)
            await self.door.ready(session)
            await self.asks(session, 10, 120)
        self.end_and_check()

    async def test_public_columns_that_didnt_grow_too_arent_served(self):
        self.before = []
        public = (self.folder.public / "table.csv").read_bytes()
        self.add_rows(3)
        longer = (self.folder.public / "table.csv").read_bytes()
        (self.folder.public / "table.csv").write_bytes(public)
        self.grow(60)
        self.door.start()
        async with self.door.session() as session:
            await self.door.ready(session, "stopped")
            self.assertEqual((await health(session))["state"], f"stopped: {AWAY['rows']}")
            self.assertIn('the public table.csv has 60 rows, and the program says {"count":63}', self.folder.said())
            self.assertEqual(self.door.stop(), 0)
            (self.folder.public / "table.csv").write_bytes(longer)
            self.door.start()
            await self.door.ready(session)
            await self.asks(session, 5, 120)
        self.end_and_check()

    async def test_a_table_that_changes_under_a_door_isnt_served_on(self):
        self.door.start()
        async with self.door.session() as session:
            await self.door.ready(session)
            await self.asks(session, 5, 120)
            self.before = self.folder.transcript()
            self.add_rows(3)
            self.door.kill_programs()
            status, body = await ask(session, line_of("sum", 0, 61))
            self.assertEqual(status, 503)
            self.assertIn(AWAY["changed"], json.loads(body)["error"])
            self.assertIn("has changed: start the door again", self.folder.said())
            self.assertEqual(self.door.stop(), 0)
            self.grow(60)
            self.door.start()
            await self.door.ready(session)
            self.told = []
            await self.asks(session, 5, 120)
        self.end_and_check()


if __name__ == "__main__":
    unittest.main()

"""A table that is renewed: another transcript for each period, and a door that begins one over other public files once it is told."""
import contextlib
import json
import pathlib
import shutil
import subprocess
import sys
import tempfile
import unittest
from unittest import mock

from case import DoorCase
from kit import AUDITOR, FRONT, ask, health, line_of

sys.path.insert(0, str(FRONT))
from doorway import files, periods  # noqa: E402
from doorway.asked import Questions  # noqa: E402
from doorway.periods import begin_if_told, open_period, records_in  # noqa: E402
from doorway.transcript import Damaged, Transcript, check_table  # noqa: E402
from planning.columns import Columns  # noqa: E402

SCHEMA = json.dumps({"columns": [{"name": "team", "is": "text"}, {"name": "current", "is": "number"}, {"name": "pay", "is": "sum"}]})
OCTOBER = "team,current\nQA,1\nQA,1\nOPS,1\n"
NOVEMBER = "team,current\nQA,1\nOPS,1\nOPS,0\nDEV,1\n"
DECEMBER = NOVEMBER.replace("OPS,1", "DEV,1")
ALL = b'{"ask":"sum","column":"pay","where":"all"}'
PAIRS = [(ALL, b'{"sum":600}'), (ALL.replace(b"all", b"team = 'QA'"), b'{"sum":300}'), (ALL.replace(b"all", b"team = 'OPS'"), b'{"denied":"unsafe"}')]
# A journal over three rows with two sums, and one that grew to four: byte by byte as the page on formats has it.
HEADER = "01 5351414a524e4c 01 0003 01 0100000000000000"
TWO = bytes.fromhex(HEADER + "01 01 00 0000000000000258 07" + "01 01 00 000000000000012c 03" + "00")
GROWN = bytes.fromhex(HEADER + "01 02 00 0000000000000258 07 00 000000000000012c 03" + "01 00 0004" + "00 ffff")


class Begun(unittest.TestCase):
    """The files alone, without a program."""

    def setUp(self):
        self.folder = pathlib.Path(tempfile.mkdtemp(prefix="periods-"))
        self.addCleanup(shutil.rmtree, self.folder, ignore_errors=True)
        self.public, self.keep, self.said = self.folder / "public", self.folder / "keep", []
        self.public.mkdir()
        self.keep.mkdir()
        self.put(OCTOBER)
        (self.public / "notes.json").write_text("{}")
        self.open()
        with contextlib.closing(Transcript(self.keep)) as transcript:
            transcript.hold([line for line, _ in PAIRS])
            transcript.add(PAIRS)
            transcript.hold([])
        self.before = (self.keep / "transcript.jsonl").read_bytes()

    def put(self, table, journal=None):
        (self.public / "schema.json").write_text(SCHEMA)
        (self.public / "table.csv").write_text(table)
        (self.public / "answers.journal").unlink(missing_ok=True)
        if journal is not None:
            (self.public / "answers.journal").write_bytes(journal)

    def tell(self):
        (self.keep / "renewed").touch()

    def open(self):
        return open_period(self.public, self.keep, self.said.append)

    def transcript(self):
        with contextlib.closing(Transcript(self.keep)) as transcript:
            return transcript.text(), transcript.left

    def test_what_is_before_stays_and_a_fresh_transcript_begins(self):
        (self.keep / "report.jsonl").write_text("{}\n")
        (self.keep / "first.sha256").write_text("1\n")
        self.put(NOVEMBER, GROWN)
        self.tell()
        period = self.open()
        self.assertEqual((period.number, period.earlier, self.transcript()), (2, 2, (b"", [])))
        self.assertEqual(sorted(path.name for path in self.keep.iterdir()),
                         ["period.1", "period.2", "table.sha256", "transcript.jsonl", "waiting.jsonl"])
        there = {name: (self.keep / "period.1" / name).read_bytes() for name in ("transcript.jsonl", "table.csv", "schema.json", "notes.json")}
        self.assertEqual(there, {"transcript.jsonl": self.before, "table.csv": OCTOBER.encode(), "schema.json": SCHEMA.encode(), "notes.json": b"{}"})
        self.assertEqual((self.keep / "period.1/report.jsonl").read_text(), "{}\n")
        self.assertEqual((self.keep / "period.2/table.csv").read_text(), NOVEMBER)
        self.assertEqual((self.keep / "period.2/answers.journal").read_bytes(), GROWN)
        self.assertIn("renewed: period 2 begins with a transcript of its own", self.said[-1])
        self.assertEqual(self.open(), period)

    def test_nothing_begins_untold(self):
        for table in (NOVEMBER, OCTOBER.replace("QA", "DEV")):
            self.put(table)
            with self.assertRaisesRegex(Damaged, "If the table was renewed put a file renewed into"):
                self.open()
            self.assertEqual((self.keep / "transcript.jsonl").read_bytes(), self.before)
        self.assertEqual([path.name for path in self.keep.glob("period.*")], ["period.1"])

    def test_nothing_begins_over_the_same_files(self):
        self.tell()
        with self.assertRaisesRegex(Damaged, "renewed is there, and schema.json and the public table.csv are those that"):
            self.open()
        self.assertEqual(self.transcript()[0], self.before)
        (self.keep / "renewed").unlink()
        self.assertEqual(self.open().number, 1)

    def test_a_schema_alone_is_another_period_too(self):
        (self.public / "schema.json").write_text(SCHEMA + "\n")
        self.tell()
        self.assertEqual(self.open().number, 2)

    def test_a_door_that_has_nothing_yet_takes_no_notice(self):
        shutil.rmtree(self.keep)
        self.keep.mkdir()
        self.tell()
        self.assertEqual(self.open().number, 1)
        self.assertFalse((self.keep / "renewed").exists())

    def test_each_period_has_its_number(self):
        self.put(NOVEMBER)
        self.tell()
        self.open()
        with contextlib.closing(Transcript(self.keep)) as transcript:
            transcript.add(PAIRS[:1])
        self.put(DECEMBER)
        self.tell()
        period = self.open()
        self.assertEqual((period.number, period.earlier), (3, 3))
        self.assertEqual((self.keep / "period.2/transcript.jsonl").read_bytes(), b"\n".join(PAIRS[0]) + b"\n")
        self.assertEqual([(self.keep / f"period.{number}/table.csv").read_text() for number in (1, 2, 3)], [OCTOBER, NOVEMBER, DECEMBER])

    def test_rows_that_come_later_are_another_period_too(self):
        self.put(NOVEMBER)
        self.tell()
        self.open()
        self.put(NOVEMBER + "DEV,7\n")
        with self.assertRaisesRegex(Damaged, "If the table was renewed"):
            self.open()

    def test_what_was_with_the_program_isnt_asked_over_other_rows(self):
        with contextlib.closing(Transcript(self.keep)) as transcript:
            transcript.hold([ALL, ALL.replace(b"all", b"team = 'DEV'")])
        self.put(NOVEMBER)
        self.tell()
        self.open()
        self.assertEqual(self.transcript(), (b"", []))
        self.assertIn("renewed: 2 questions were with the program when it ended, and aren't asked again: nobody was told a reply", self.said)

    def test_a_second_door_changes_nothing(self):
        self.put(NOVEMBER)
        self.tell()
        with contextlib.closing(Transcript(self.keep)) as first:
            with self.assertRaisesRegex(Damaged, "another door keeps"):
                self.open()
            self.assertEqual(first.text(), self.before)
        self.assertEqual(self.open().number, 2)

    def test_a_copy_of_the_journal_is_of_now(self):
        no, few = "isn't a journal", "has {} answers, and 2 were given"
        for journal, due in ((GROWN[:20], no), (b"\x02" + TWO[1:], no), (TWO[:30], no), (b"", no),
                             (bytes.fromhex(HEADER + "00"), few.format(0)), (TWO[:32] + b"\0", few.format(1))):
            with self.subTest(due=due, journal=journal):
                self.put(NOVEMBER, journal)
                self.tell()
                with self.assertRaisesRegex(Damaged, f"answers.journal {due}: copy the journal there as it is now"):
                    self.open()
                self.assertEqual((self.keep / "transcript.jsonl").read_bytes(), self.before)
        # One that was compacted has fewer.
        self.put(NOVEMBER, TWO[:32] + b"\0")
        (self.keep / "compacted.jsonl").write_text('{"records":2,"kept":1}\n')
        self.assertEqual(self.open().number, 2)

    def test_journals_are_counted(self):
        self.assertEqual([records_in(text) for text in (TWO, GROWN, TWO[:-1] + b"\1", TWO[:-1])], [2, 2, None, None])

    def test_without_a_copy_nobody_can_say_what_would_be_answered(self):
        self.assertEqual(self.open().simulating, self.keep / "period.1")
        self.put(NOVEMBER)
        self.tell()
        self.assertIsNone(self.open().simulating)
        self.assertIn("so nobody can say what would be answered", self.said[-2])
        self.put(DECEMBER, TWO)
        self.tell()
        self.assertEqual(self.open().simulating, self.keep / "period.3")

    def test_a_copy_for_the_period_to_come_is_no_history_of_this_one(self):
        self.put(OCTOBER, TWO)
        self.assertEqual(self.open().simulating, self.keep / "period.1")
        self.assertFalse((self.keep / "period.1/answers.journal").exists())
        self.put(NOVEMBER, TWO)
        self.tell()
        self.put(NOVEMBER, GROWN)
        period = self.open()
        (self.public / "answers.journal").write_bytes(TWO)
        self.assertEqual((period.simulating / "answers.journal").read_bytes(), GROWN)

    def test_public_files_that_grew_are_those_of_the_period(self):
        self.put(OCTOBER + "DEV,2\n")
        self.assertEqual(self.open().number, 1)
        self.assertEqual((self.keep / "period.1/table.csv").read_text(), OCTOBER + "DEV,2\n")

    def test_files_that_nobody_kept_are_said(self):
        shutil.rmtree(self.keep / "period.1")
        self.put(NOVEMBER)
        self.tell()
        self.open()
        self.assertTrue(any("the public files of before aren't in" in said for said in self.said))

    def test_a_stop_at_any_step_is_made_good_at_the_next_start(self):
        stops = 0
        for step in ("write_whole", "end", "begin", "hold", "Transcript", "sync_folder", "files.sync_folder"):
            for number in range(9):
                with self.subTest(step=step, number=number):
                    self.doCleanups()
                    self.setUp()
                    stops += self.stopped_at(step, number)
        self.assertGreater(stops, 15)

    def stopped_at(self, step, number):
        """Begins a period with the call of that number failing, and then again without a fault. Whether it was stopped."""
        with contextlib.closing(Transcript(self.keep)) as transcript:
            transcript.hold([ALL.replace(b"all", b"team = 'DEV'")])
        self.put(NOVEMBER, TWO)
        self.tell()
        where, name = (files, "sync_folder") if step.startswith("files.") else (periods, step)
        true, calls, stopped = getattr(where, name), [], False

        def fails(*words, **named):
            calls.append(words)
            if len(calls) > number:
                raise KeyboardInterrupt
            return true(*words, **named)

        with mock.patch.object(where, name, fails):
            try:
                self.open()
            except KeyboardInterrupt:
                stopped = True
        period = self.open()
        self.assertEqual((period.number, period.earlier, self.transcript()), (2, 2, (b"", [])))
        self.assertEqual((self.keep / "period.1/transcript.jsonl").read_bytes(), self.before)
        self.assertEqual((self.keep / "period.1/table.csv").read_text(), OCTOBER)
        self.assertEqual((self.keep / "period.2/answers.journal").read_bytes(), TWO)
        self.assertFalse((self.keep / "renewed").exists())
        self.assertEqual(len(list(self.keep.glob("period.*"))), 2)
        check_table(self.public, self.keep)
        return stopped

    def test_files_that_change_once_more_before_it_is_done_are_the_same_period(self):
        self.put(NOVEMBER)
        self.tell()
        with mock.patch.object(periods, "begin", side_effect=KeyboardInterrupt), contextlib.suppress(KeyboardInterrupt):
            begin_if_told(self.public, self.keep, self.said.append)
        self.put(DECEMBER)
        self.assertEqual(self.open().number, 2)
        self.assertEqual((self.keep / "period.2/table.csv").read_text(), DECEMBER)


class Only(unittest.TestCase):
    """Rows that no question is over, by the schema's `only`."""

    SCHEMA = json.dumps({**json.loads(SCHEMA), "only": "current = 1"}).encode()

    def test_questions_are_over_those_who_are_there(self):
        questions = Questions(self.SCHEMA, NOVEMBER.encode())
        self.assertEqual((questions.rows, questions.rows_of("team = 'OPS'")), (3, 0b010))
        self.assertEqual(questions.key(ALL), questions.key(ALL.replace(b"all", b"current = 1")))
        self.assertNotEqual(questions.key(ALL), questions.key(ALL.replace(b"all", b"team = 'OPS'")))
        self.assertEqual(Questions(SCHEMA.encode(), NOVEMBER.encode()).rows, 4)

    def test_what_isnt_a_condition_keeps_all(self):
        for only in ("current", "age = 1", 5):
            schema = json.dumps({**json.loads(SCHEMA), "only": only}).encode()
            self.assertEqual(Questions(schema, NOVEMBER.encode()).rows, 4)

    def test_what_is_near_and_planned_is_over_those_who_are_there(self):
        columns = Columns(self.SCHEMA, NOVEMBER.encode())
        self.assertEqual((columns.everyone.bit_count(), columns.rows_where("team = 'OPS'").bit_count()), (3, 1))
        self.assertEqual(list(columns.values("team")), ["DEV", "OPS", "QA"])
        self.assertEqual(list(Columns(self.SCHEMA, NOVEMBER.replace("DEV,1", "DEV,0").encode()).values("team")), ["OPS", "QA"])


class Renewed(DoorCase):
    """Doors over a table whose people move between two of them."""

    rows = 60
    ALL, LOW, REST = line_of("sum", 0, 59), line_of("sum", 0, 29), line_of("sum", 1, 29)

    def move(self):
        """Gives k from 100 on to the last 30 rows in both tables: all of them moved."""
        self.folder.rows = [(team, k + 100 if k >= 30 else k, pay, bonus) for team, k, pay, bonus in self.folder.rows]
        for folder, width in ((self.folder.path, 4), (self.folder.public, 2)):
            lines = (folder / "table.csv").read_bytes().splitlines(keepends=True)[:1]
            rows = [",".join(map(str, row[:width])).encode() + b"\r\n" for row in self.folder.rows]
            (folder / "table.csv").write_bytes(b"".join(lines + rows))

    def tell(self):
        shutil.copy(self.folder.path / "answers.journal", self.folder.public)
        (self.folder.public / "renewed").touch()

    async def second_period(self, session):
        """Everybody of the last 30 rows moved, the door is told so and starts over the table as it is then."""
        self.move()
        self.tell()
        self.door.start()
        await self.door.ready(session)

    async def first_period(self, session):
        self.door.start()
        await self.door.ready(session)
        for line in (self.ALL, self.LOW):
            self.assertIn(b'{"sum":', (await ask(session, line))[1])
        self.assertEqual(self.door.stop(), 0)

    async def test_nothing_is_answered_from_the_transcript_of_another_period(self):
        async with self.door.session() as session:
            await self.first_period(session)
            before = (self.folder.public / "transcript.jsonl").read_bytes()
            self.move()
            self.door.start()
            await self.ends()
            self.assertIn("If the table was renewed put a file renewed into", self.folder.said())
            self.tell()
            self.door.start()
            await self.door.ready(session)
            self.assertEqual((await health(session))["records"], 2)
            # The same words mean the first 30 rows alone now, which were answered; one less of them would be one number.
            self.assertEqual(await ask(session, self.ALL), (200, json.dumps(self.folder.due("sum", 0, 59)).replace(" ", "").encode() + b"\n"))
            self.assertEqual(await ask(session, self.REST), (200, b'{"denied":"unsafe"}\n'))
            self.assertEqual((await health(session))["repeats"], 0)
            await self.check_periods(session, before)
            self.assertEqual(self.door.stop(), 0)
        self.assertEqual(len(self.folder.journal()), 3)
        self.assertFalse((self.folder.public / "renewed").exists())

    async def check_periods(self, session, before):
        """Others check the first period by what the door has of it, and `simulate`."""
        async with session.get("/periods.json") as response:
            self.assertEqual(await response.json(), [1, 2])
        with tempfile.TemporaryDirectory() as folder:
            for name in ("schema.json", "table.csv", "transcript.jsonl"):
                async with session.get(f"/period.1/{name}") as response:
                    self.assertEqual(response.status, 200)
                    pathlib.Path(folder, name).write_bytes(await response.read())
            text = pathlib.Path(folder, "transcript.jsonl").read_bytes()
            self.assertEqual(text, before)
            run = subprocess.run([AUDITOR, "simulate"], cwd=folder, input=text, capture_output=True)
            self.assertEqual((run.returncode, run.stdout), (0, b'{"verdict":"released"}\n' * 2))
        for path in ("/period.2/transcript.jsonl", "/period.3/table.csv", "/period.1/waiting.jsonl", "/period.1/ended.json", "/period.01/table.csv",
                     "/period.1/../table.sha256", "/period.1%2f..%2f/table.sha256", "/period.1/..%2ftable.sha256", "/period./table.csv"):
            async with session.get(path) as response:
                self.assertEqual(response.status, 404)

    async def test_an_older_journal_is_seen_over_periods(self):
        self.door = self.make_door()
        self.door.words += ["--report-every", "0.1"]
        kept = (self.folder.path / "answers.journal").read_bytes()
        async with self.door.session() as session:
            await self.first_period(session)
            await self.second_period(session)
            await ask(session, self.ALL)
            self.assertEqual(self.door.stop(), 0)
            (self.folder.path / "answers.journal").write_bytes(kept)
            self.door.start()
            await self.ends()
        self.assertIn("the journal holds 0 answers and 3 were given", self.folder.said())

    async def test_what_would_be_goes_by_the_answers_of_before(self):
        async with self.door.session() as session:
            await self.first_period(session)
            await self.second_period(session)
            # The first 30 rows alone are meant now, and their sum was told. With one row less the difference would be one number.
            self.assertEqual(await ask(session, self.ALL, "/would"), (200, b'{"verdict":"released","new":false}\n'))
            self.assertEqual(await ask(session, self.REST, "/would"), (200, b'{"verdict":"unsafe"}\n'))
            near = json.loads((await ask(session, self.REST, "/near"))[1])
            self.assertEqual(near["verdict"], "unsafe")
            self.assertEqual(await ask(session, self.REST), (200, b'{"denied":"unsafe"}\n'))
            await self.check_second_period(session)
            self.assertEqual(self.door.stop(), 0)

    async def check_second_period(self, session):
        """Others check the second period by what the door has of it, and `simulate`, which begins with the journal's answers."""
        with tempfile.TemporaryDirectory() as folder:
            for path in ("/period.2/schema.json", "/period.2/table.csv", "/period.2/answers.journal", "/transcript.jsonl"):
                async with session.get(path) as response:
                    self.assertEqual(response.status, 200)
                    pathlib.Path(folder, path.rsplit("/")[-1]).write_bytes(await response.read())
            text = pathlib.Path(folder, "transcript.jsonl").read_bytes()
            run = subprocess.run([AUDITOR, "simulate"], cwd=folder, input=text, capture_output=True)
            self.assertEqual((run.returncode, run.stdout), (0, b'{"verdict":"unsafe"}\n'))
            # Without the answers of before the question isn't one to deny.
            pathlib.Path(folder, "answers.journal").unlink()
            run = subprocess.run([AUDITOR, "simulate"], cwd=folder, input=text, capture_output=True)
            self.assertEqual((run.returncode, run.stdout), (14, b'{"verdict":"released"}\n'))

    async def test_what_would_be_isnt_said_without_the_answers_of_before(self):
        async with self.door.session() as session:
            await self.first_period(session)
            self.move()
            (self.folder.public / "renewed").touch()
            self.door.start()
            await self.door.ready(session)
            for path in ("/would", "/near"):
                status, body = await ask(session, self.REST, path)
                self.assertEqual(status, 501)
                self.assertIn("it can't say what would be answered", json.loads(body)["error"])
            self.assertEqual(await ask(session, self.REST), (200, b'{"denied":"unsafe"}\n'))
            # What was with the program is asked again all the same.
            self.door.kill_programs()
            self.assertEqual(await ask(session, self.ALL), (200, json.dumps(self.folder.due("sum", 0, 59)).replace(" ", "").encode() + b"\n"))
            self.assertEqual(self.door.stop(), 0)


class OnlyThere(DoorCase):
    """A door over a table of which questions are over some rows alone, by its schema. The program has to know the key."""

    rows = 60

    def setUp(self):
        super().setUp()
        for folder in (self.folder.path, self.folder.public):
            schema = json.loads((folder / "schema.json").read_text())
            (folder / "schema.json").write_text(json.dumps({**schema, "only": "k < 40"}))
        self.folder.rows = self.folder.rows[:40]

    async def test_questions_counts_and_what_is_near_are_over_these_rows(self):
        self.door.start()
        async with self.door.session() as session:
            await self.door.ready(session)
            self.assertEqual(await ask(session, line_of("count", 0, 59)), (200, b'{"count":40}\n'))
            for low, high in ((0, 59), (0, 39), (10, 25)):
                await self.ask(session, ("sum", low, high), line_of("sum", low, high))
            # Over 60 rows and over 40 the same is asked, so it makes one record.
            self.assertEqual([(await health(session))[name] for name in ("records", "repeats")], [2, 1])
            self.assertEqual(await ask(session, line_of("sum", 40, 59)), (200, b'{"refused":"empty"}\n'))
            self.assertEqual(await ask(session, line_of("sum", 10, 24), "/would"), (200, b'{"verdict":"unsafe"}\n'))
            near = json.loads((await ask(session, line_of("sum", 10, 24), "/near"))[1])
            self.assertEqual(near["verdict"], "unsafe")
            self.assertLessEqual(near["rows"], 40)
        self.end_and_check()


if __name__ == "__main__":
    unittest.main()

"""Several tables behind one door: each has its own program, its own journal and its own transcript."""
import asyncio
import contextlib
import io
import json
import os
import pathlib
import random
import shutil
import signal
import subprocess
import sys
import tempfile
import unittest

from kit import AWAY, DOOR, FRONT, SEED, Door, Folder, ask, health, line_of

sys.path.insert(0, str(FRONT))
from doorway import settings  # noqa: E402

NAMES = ("north", "south", "west")


class Office:
    """What a Door wants of a folder: the folder in which the parts' folders are."""

    def __init__(self, sizes=(60, 100, 140)):
        self.path = pathlib.Path(tempfile.mkdtemp(prefix="office-"))
        self.parts = {name: Folder(rows, SEED + place, self.path / name) for place, (name, rows) in enumerate(zip(NAMES, sizes))}

    def said(self):
        return (self.path / "door.err").read_text()

    def words(self, *names):
        return ["--folder", f"{self.path}/{{table}}", *(word for name in names or NAMES for word in ("--table", name))]


class Tables(unittest.IsolatedAsyncioTestCase):
    def setUp(self):
        self.office = Office()
        self.lines = set()                  # those that were asked, with the name of their table
        self.door = Door(self.office, *self.office.words(), plain=True)

    def tearDown(self):
        self.door.end()
        shutil.rmtree(self.office.path, ignore_errors=True)

    async def client(self, session, number, count):
        chance = random.Random(f"{SEED} {number}")
        for _ in range(count):
            name = chance.choice(NAMES)
            part = self.office.parts[name]
            (kind, low, high), line = part.draw(chance)
            self.lines.add((name, line))
            status, body = await ask(session, line, f"/{name}/ask")
            self.assertEqual(status, 200)
            reply = json.loads(body)
            if "denied" not in reply:
                self.assertEqual(reply, part.due(kind, low, high))

    async def test_each_table_answers_for_its_own_rows(self):
        self.door.start()
        async with self.door.session() as session:
            await self.door.ready(session)
            await asyncio.gather(*(self.client(session, number, 15) for number in range(24)))
            async with session.get("/tables.json") as response:
                self.assertEqual(await response.json(), list(NAMES))
            said = await health(session)
            self.assertEqual(list(said["tables"]), list(NAMES))
            # What several ask at the same moment is one question.
            self.assertIn(sum(one["asked"] + one["repeats"] for one in said["tables"].values()), range(len(self.lines), 24 * 15 + 1))
            for name, part in self.office.parts.items():
                async with session.get(f"/{name}/table.csv") as response:
                    self.assertEqual(await response.read(), (part.public / "table.csv").read_bytes())
            for path in ("/ask", "/would"):
                self.assertEqual((await ask(session, line_of("count", 0, 9), path))[0], 404)
            self.assertEqual((await ask(session, line_of("count", 0, 9), "/east/ask"))[0], 404)
        self.assertEqual(self.door.stop(), 0)
        for part in self.office.parts.values():
            self.assertEqual(part.simulate(), (0, ""))
            self.assertEqual(part.replay(), [reply for _, reply in part.transcript()])

    async def total(self, session, line):
        status, body = await ask(session, line, "/total")
        return status, json.loads(body)

    def sums(self, low, high):
        return {name: part.due("sum", low, high) for name, part in self.office.parts.items() if part.inside(low, high)}

    async def test_a_total_is_the_sum_of_the_parts(self):
        self.door.start()
        async with self.door.session() as session:
            await self.door.ready(session)
            sums = self.sums(0, 139)
            due = {"total": {"sum": sum(one["sum"] for one in sums.values())}, "parts": sums}
            self.assertEqual(await self.total(session, line_of("sum", 0, 139)), (200, due))
            counts = {name: {"count": len(part.rows)} for name, part in self.office.parts.items()}
            self.assertEqual(await self.total(session, line_of("count", 0, 139)), (200, {"total": {"count": 300}, "parts": counts}))
            # North has 60 rows: no row of it is meant, and it adds nothing.
            sums = self.sums(60, 139)
            self.assertEqual(list(sums), ["south", "west"])
            due = {"total": {"sum": sum(one["sum"] for one in sums.values())}, "parts": {"north": {"refused": "empty"}, **sums}}
            self.assertEqual(await self.total(session, line_of("sum", 60, 139)), (200, due))
            status, said = await self.total(session, line_of("sum", 500, 600))
            self.assertEqual((status, said["total"]), (200, {"refused": "empty"}))
        self.assertEqual(self.door.stop(), 0)

    async def test_a_total_says_which_part_is_not_answered_and_asks_none(self):
        self.door.start()
        async with self.door.session() as session:
            await self.door.ready(session)
            # Of south one row only is meant.
            status, said = await self.total(session, line_of("sum", 99, 139))
            self.assertEqual((status, said), (200, {"total": None, "without": ["south"], "parts": {"south": {"denied": "unsafe"}}}))
            self.assertEqual([one["records"] for one in (await health(session))["tables"].values()], [0, 0, 0])
            for line, status in [(line_of("max", 0, 99), 422), (b"x", 422), (b"", 400)]:
                self.assertEqual((await self.total(session, line))[0], status)
            wrong = b'{"ask":"count","where":"nothing"}'
            status, said = await self.total(session, wrong)
            self.assertEqual((status, said["total"], said["without"]), (200, None, list(NAMES)))
        self.assertEqual(self.door.stop(), 0)

    async def test_a_table_whose_program_is_away_holds_up_no_other(self):
        (self.office.path / "south" / "answers.journal").rename(self.office.path / "put-away")
        self.door.start()
        async with self.door.session() as session:
            await self.door.ready(session, "stopped", path="/south/health")
            status, body = await ask(session, line_of("sum", 0, 50), "/north/ask")
            self.assertEqual((status, json.loads(body)), (200, self.office.parts["north"].due("sum", 0, 50)))
            self.assertEqual((await ask(session, line_of("sum", 0, 50), "/south/ask"))[0], 503)
            async with session.get("/health") as response:
                self.assertEqual(response.status, 503)
            for kind in ("sum", "count"):
                status, said = await self.total(session, line_of(kind, 0, 40))
                self.assertEqual((status, said["total"], said["without"]), (200, None, ["south"]))
            self.assertEqual((await health(session, "/north/health"))["records"], 1)
            (self.office.path / "south" / "answers.journal").unlink(missing_ok=True)
            (self.office.path / "put-away").rename(self.office.path / "south" / "answers.journal")
            await self.door.ready(session)
        self.assertEqual(self.door.stop(), 0)

    async def test_an_older_journal_stops_its_own_table(self):
        journal = self.office.path / "south" / "answers.journal"
        empty = journal.read_bytes()
        self.door.start()
        async with self.door.session() as session:
            await self.door.ready(session)
            await ask(session, line_of("sum", 0, 50), "/south/ask")
        self.assertEqual(self.door.stop(), 0)
        journal.write_bytes(empty)
        self.door.words += ["--report-every", "0.05"]
        self.door.start()
        async with self.door.session() as session:
            await self.door.ready(session, "stopped", path="/south/health")
            self.assertEqual((await health(session, "/south/health"))["state"], f"stopped: {AWAY['older']}")
            self.assertIn("it is an older copy", self.office.said())
            self.assertEqual((await ask(session, line_of("sum", 0, 30), "/south/ask"))[0], 503)
            self.assertEqual((await ask(session, line_of("sum", 0, 50), "/north/ask"))[0], 200)
        self.assertEqual(self.door.stop(signal.SIGTERM), 0)
        # The next door doesn't forget it, though it makes no reports, and the other tables go on there too.
        self.door.words = self.door.words[:-2]
        self.door.start()
        async with self.door.session() as session:
            await self.door.ready(session, "stopped", path="/south/health")
            await self.door.ready(session, path="/north/health")
            self.assertEqual((await health(session, "/south/health"))["state"], f"stopped: {AWAY['older']}")
            self.assertIn("stopped.txt: the journal holds 0 answers and 1 were given", self.office.said())
            self.assertEqual((await ask(session, line_of("sum", 0, 30), "/south/ask"))[0], 503)
            self.assertEqual((await ask(session, line_of("sum", 0, 40), "/north/ask"))[0], 200)
        self.assertEqual(self.door.stop(), 0)


class Arguments(unittest.TestCase):
    """Wrong arguments end with status 2 and say what is wrong, before anything is opened."""

    def refused(self, *words):
        said = io.StringIO()
        with contextlib.redirect_stderr(said), self.assertRaises(SystemExit) as end:
            settings.read(words)
        self.assertEqual(end.exception.code, 2, words)
        return said.getvalue().strip().rsplit("\n", 1)[-1]

    def test_wrong_arguments_are_named(self):
        for words, text in [
                (["--batch", "0"], "--batch is 1 to 64"), (["--batch", "65"], "--batch is 1 to 64"),
                (["--least", "-1"], "at least 0"), (["--listen", "8087"], "--listen is"), (["--listen", ":8087"], "--listen is"),
                (["--serve", "s", "--report-every", "1"], "wants --audit"), (["--audit", "s"], "want --serve"),
                (["--table", "a/b"], "can't name a table"), (["--table", "health"], "can't name a table"),
                (["--table", "a", "--table", "a"], "named twice"), (["--table", "a", "--keep", "b"], "{table}"),
                (["--nothing"], "unrecognized")]:
            self.assertIn(text, self.refused(*words), words)

    def test_a_program_named_from_here_is_found_from_other_folders(self):
        self.assertEqual(settings.read(["--auditor", "out/auditor"]).auditor, os.path.abspath("out/auditor"))
        self.assertEqual(settings.read([]).auditor, "auditor")

    def test_a_file_that_is_no_socket_is_not_removed(self):
        folder = Folder(10)
        path = folder.path / "precious"
        path.write_text("kept")
        run = subprocess.run([sys.executable, str(DOOR), "--folder", folder.path, "--listen", f"unix:{path}"], capture_output=True, text=True)
        self.assertEqual((run.returncode, path.read_text()), (1, "kept"), run.stderr)
        self.assertTrue(run.stderr.startswith("door: "), run.stderr)

    def test_a_missing_folder_is_named(self):
        run = subprocess.run([sys.executable, str(DOOR), "--folder", "/nowhere"], capture_output=True, text=True)
        self.assertEqual(run.returncode, 1)
        self.assertIn("/nowhere/public/schema.json", run.stderr)


if __name__ == "__main__":
    unittest.main()

"""Two journals behind the door: each answer that was told is in both, and what it says if one of them is lost."""
import asyncio
import json
import os
import pathlib
import re
import shutil
import subprocess
import sys
import tempfile
import unittest

from case import DoorCase
from kit import AUDITOR, AWAY, FRONT, Door, Folder, ask, health, line_of

sys.path.insert(0, str(FRONT))
from doorway import settings  # noqa: E402

UNIT = FRONT / "units" / "twin.conf"


class TwinFolder(Folder):
    """A folder with two journals, of which the second one can be on another disk."""

    def __init__(self, *arguments, **more):
        super().__init__(*arguments, **more)
        (self.path / "other_disk").mkdir()
        (self.path / "answers.spare").symlink_to("other_disk/answers.spare")
        self.restore()

    def restore(self):
        subprocess.run([AUDITOR, "restore"], cwd=self.path, check=True)


class Twins(DoorCase):
    words = ("--twin",)

    def setUp(self):
        self.folder = TwinFolder(self.rows)
        self.door = Door(self.folder, *self.words)
        self.told = []

    def check_all(self):
        super().check_all()
        self.assertEqual(self.folder.journal("answers.spare"), self.folder.journal())

    async def test_each_answer_is_in_both(self):
        async with self.door.start().session() as session:
            await self.door.ready(session)
            await asyncio.gather(*(self.client(session, number, 15) for number in range(16)))
        self.assertGreater(len(self.folder.journal()), 20)
        self.end_and_check()

    async def test_a_program_that_is_killed_again_and_again_leaves_them_in_both(self):
        await self.under_kills(self.kill_the_program, kills=8, clients=16, questions=20)

    async def stopped(self, session, code, text):
        """What the door's log says while nothing is served. Askers get the sentence for the code."""
        await self.door.ready(session, state="stopped")
        self.assertEqual((await health(session))["state"], f"stopped: {AWAY[code]}")
        status, _ = await ask(session, line_of("max", 3, 177))
        self.assertEqual(status, 503)
        said = self.folder.said().rsplit("listening on", 1)[-1]
        self.assertIn(text, said)
        return said

    async def test_a_lost_spare_stops_the_door_until_it_is_restored(self):
        async with self.door.start().session() as session:
            await self.door.ready(session)
            await self.client(session, 0, 10)
            self.assertEqual(self.door.stop(), 0)
            (self.folder.path / "other_disk" / "answers.spare").unlink()
            self.door.start()
            said = await self.stopped(session, "20", "spare: no journal")
            self.assertIn("run auditor restore in the folder", said)
            await asyncio.to_thread(self.folder.restore)
            await self.door.ready(session)
            await self.client(session, 1, 10)
        self.end_and_check()

    async def test_a_disk_that_is_away_is_no_lost_spare(self):
        async with self.door.start().session() as session:
            await self.door.ready(session)
            await self.client(session, 0, 10)
            self.assertEqual(self.door.stop(), 0)
            disk = self.folder.path / "other_disk"
            away = disk.rename(self.folder.path / "away")
            self.door.start()
            self.assertIn("the folder that its link leads to isn't there", await self.stopped(session, "19", "spare failed"))
            away.rename(disk)
            await self.door.ready(session)
            await self.client(session, 1, 10)
        self.end_and_check()

    async def test_a_lost_journal_is_restored_and_nothing_is_forgotten(self):
        async with self.door.start().session() as session:
            await self.door.ready(session)
            await self.client(session, 0, 20)
            self.assertEqual(self.door.stop(), 0)
            (self.folder.path / "answers.journal").unlink()
            self.door.start()
            await self.stopped(session, "7", "no journal")
            await asyncio.to_thread(self.folder.restore)
            await self.door.ready(session)
            await self.client(session, 1, 10)
        self.end_and_check()

    async def test_another_journal_in_its_place_is_seen(self):
        async with self.door.start().session() as session:
            await self.door.ready(session)
            await self.ask(session, ("sum", 0, 99), line_of("sum", 0, 99))
            self.assertEqual(self.door.stop(), 0)
            journal = self.folder.path / "answers.journal"
            last = journal.read_bytes()
            journal.unlink()
            subprocess.run([AUDITOR, "init"], cwd=self.folder.path, check=True)
            subprocess.run([AUDITOR, "serve"], cwd=self.folder.path, input=line_of("sum", 50, 149) + b"\n", check=True,
                           capture_output=True)
            self.door.start()
            await self.stopped(session, "21", "journals differ at record 0")
            journal.write_bytes(last)
            await self.door.ready(session)
        self.end_and_check()


class AfterGrowth(DoorCase):
    """A table with a wave that gets a row, as prepare.py leaves it."""

    def setUp(self):
        self.folder = Folder(3, init=False)
        self.write([("QA", 1, 100, 7), ("QA", 1, 200, 9), ("OPS", 1, 300, 9)])
        for command in ("init", "restore"):
            subprocess.run([AUDITOR, command], cwd=self.folder.path, check=True)
        self.door = Door(self.folder, "--twin")

    def write(self, rows):
        for folder, width in ((self.folder.path, 4), (self.folder.public, 2)):
            lines = [",".join(map(str, row[:width])) for row in [("team", "k", "salary", "bonus"), *rows]]
            (folder / "table.csv").write_text("".join(line + "\n" for line in lines))

    async def test_the_spare_is_removed_and_restored(self):
        line = json.dumps({"ask": "sum", "column": "salary", "where": "all"}).encode()
        async with self.door.start().session() as session:
            await self.door.ready(session)
            self.assertEqual(await ask(session, line), (200, b'{"sum":600}\n'))
            self.assertEqual(self.door.stop(), 0)
            self.write([("QA", 1, 100, 7), ("QA", 1, 200, 9), ("OPS", 1, 300, 9), ("OPS", 2, 400, 4)])
            subprocess.run([AUDITOR, "grow"], cwd=self.folder.path, check=True)
            self.door.start()
            await self.door.ready(session, state="stopped")
            self.assertEqual((await health(session))["state"], f"stopped: {AWAY['20']}")
            self.assertIn("spare: journal is of another table: rows 3, now 4", self.folder.said())
            (self.folder.path / "answers.spare").unlink()
            subprocess.run([AUDITOR, "restore"], cwd=self.folder.path, check=True)
            await self.door.ready(session)
            self.assertEqual(await ask(session, line), (200, b'{"denied":"unsafe"}\n'))
        self.assertEqual(self.door.stop(), 0)


class Arguments(unittest.TestCase):
    def test_the_door_starts_no_twins_behind_a_socket(self):
        self.assertTrue(settings.read(["--twin"]).twin)
        self.assertFalse(settings.read([]).twin)
        with self.assertRaises(SystemExit), open(os.devnull, "w") as nothing:
            sys.stderr, stream = nothing, sys.stderr
            try:
                settings.read(["--twin", "--serve", "serve.sock"])
            finally:
                sys.stderr = stream

    def test_the_unit_starts_what_the_program_takes(self):
        words = re.findall(r"(?m)^ExecStart=(.+)$", UNIT.read_text())
        self.assertEqual(words, [f"/usr/local/bin/auditor serve --twin --batch {settings.read([]).batch}"])

    @unittest.skipIf(shutil.which("systemd-analyze") is None, "no systemd here")
    def test_systemd_takes_it(self):
        with tempfile.TemporaryDirectory() as folder:
            for path in UNIT.parent.glob("auditor-serve*"):
                shutil.copy(path, folder)
            beside = pathlib.Path(folder, "auditor-serve@.service.d")
            beside.mkdir()
            shutil.copy(UNIT, beside)
            done = subprocess.run(["systemd-analyze", "verify", *sorted(pathlib.Path(folder).glob("*.s*"))[:2]], capture_output=True, text=True)
            self.assertEqual([line for line in done.stderr.split("\n") if line and "is not executable" not in line], [])


if __name__ == "__main__":
    unittest.main()

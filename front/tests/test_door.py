"""Many askers, and stops of either side at random moments. SEED chooses the questions and the moments."""
import asyncio
import json
import os
import pathlib
import shutil
import signal
import subprocess
import time
import unittest

from case import DoorCase
from kit import AUDITOR, FRONT, NOBODY, PATIENCE, Door, ask, health, line_of


class Doors(DoorCase):
    clients, questions, kills = 64, 30, 8
    patient_clients, patient_questions = 24, 10             # at most, under kills

    async def test_each_asker_gets_its_own_reply(self):
        self.door.start()
        async with self.door.session() as session:
            await self.door.ready(session)
            await asyncio.gather(*(self.client(session, number, self.questions) for number in range(self.clients)))
            said = await health(session)
        self.assertEqual(len(self.told), self.clients * self.questions)
        self.assertEqual(said["restarts"], 0)
        self.end_and_check()

    async def killed_by(self, kill):
        await self.under_kills(kill, self.kills, min(self.clients, self.patient_clients), min(self.questions, self.patient_questions))

    async def test_nothing_told_is_lost_when_the_program_is_killed(self):
        await self.killed_by(self.kill_the_program)

    async def kill_the_door(self):
        ended = self.door.stop(signal.SIGKILL)
        self.door.start()
        return ended == -signal.SIGKILL

    async def test_nothing_told_is_lost_when_the_door_is_killed(self):
        await self.killed_by(self.kill_the_door)

    async def kill_both(self):
        self.door.kill_programs()
        return await self.kill_the_door()

    async def test_nothing_told_is_lost_when_both_are_killed(self):
        await self.killed_by(self.kill_both)


class ShortRuns(Doors):
    """The same, with an end of the program's input after each few groups."""
    words, clients, questions, kills = ("--run-limit", 3000), 16, 8, 6


class OneByOne(Doors):
    """The same, with a program that answers each line alone."""
    words, clients, questions, kills = ("--batch", 1), 16, 8, 6


class WithReports(Doors):
    """The same, with a report in each rest."""
    words, clients, questions, kills = ("--report-every", 0.01), 8, 12, 5


# Conditions of totals that are protected, each with the rows that it means, a row as kit.Folder has it.
TOTALS = {
    "team = 'QA'": lambda row: row[0] == "QA",
    "k < 70 and not team in ('OPS', 'DEV')": lambda row: row[1] < 70 and row[0] not in ("OPS", "DEV"),
    "k >= 30 and k <= 149": lambda row: 30 <= row[1] <= 149,
}
PRIME = 2**61 - 1


def reduced(row, pivots):
    """What is left of a row once multiples of others are taken from it; each of these is 1 at its pivot, the first place of its own."""
    for place, pivot in pivots.items():
        if row[place]:
            row = [(one - row[place] * other) % PRIME for one, other in zip(row, pivot)]
    return row


def pivots_of(sets, count):
    """The reduced rows of some sets of rows, by their pivots. They span over the whole numbers modulo a prime what the sets span."""
    pivots = {}
    for members in sets:
        row = reduced([int(place in members) for place in range(count)], pivots)
        first = next((place for place, one in enumerate(row) if one), None)
        if first is not None:
            inverse = pow(row[first], -1, PRIME)
            pivots[first] = [one * inverse % PRIME for one in row]
    return pivots


class WithTotals(Doors):
    """The same, over a schema that protects totals: none of them follows from all the answers in the journal together."""
    protect, clients, questions, kills = tuple(TOTALS), 16, 12, 6

    def check_all(self):
        super().check_all()
        count = len(self.folder.rows)
        pivots = pivots_of({rows for column, rows, _ in self.folder.journal() if column == 0}, count)
        self.assertGreater(len(pivots), 4)
        for where, holds in TOTALS.items():
            self.assertTrue(any(reduced([int(holds(row)) for row in self.folder.rows], pivots)), where)

    async def test_a_total_is_denied_in_whatever_words_it_is_asked(self):
        lines = [line_of_sum(f"{front}{where}{end}") for where in TOTALS for front, end in (("", ""), ("not (not (", "))"), ("", " and all"))]
        parts = [line_of_sum(where) for where in ("k < 30", "k > 149", "all")]
        self.door.start()
        async with self.door.session() as session:
            await self.door.ready(session)
            for line in (*lines, *[line.replace(b'"sum"', b'"avg"') for line in lines]):
                self.assertEqual(await ask(session, line, "/would"), (200, b'{"verdict":"unsafe"}\n'), line)
                self.assertEqual(await ask(session, line), (200, b'{"denied":"unsafe"}\n'), line)
            # Two of the three parts of the table are told, and the whole would give the third, which is protected.
            replies = [(await ask(session, line))[1] for line in parts]
            self.assertEqual(([b"sum" in reply for reply in replies], replies[2]), ([True, True, False], b'{"denied":"unsafe"}\n'))
            await self.client(session, 0, 20)
        self.end_and_check()


def line_of_sum(where):
    return json.dumps({"ask": "sum", "column": "salary", "where": where}).encode()


@unittest.skipUnless(shutil.which("socat") and os.geteuid() == 0, "socat and root are wanted")
class OfAnotherUser(Doors):
    """The same, with the program on the other side of sockets, and a door that may read neither table nor journal."""
    clients, questions, kills = 16, 8, 6

    def make_door(self):
        for path in (self.folder.path, self.folder.public):
            path.chmod(0o755)
        for name in ("table.csv", "answers.journal"):
            (self.folder.path / name).chmod(0o600)
        os.chown(self.folder.public, NOBODY, NOBODY)
        keep = self.folder.path / "door"
        keep.mkdir()
        os.chown(keep, NOBODY, NOBODY)
        self.sockets = [self.listen(f"{AUDITOR} serve --batch 64", keep / "serve"), self.listen(f"{AUDITOR} audit", keep / "audit"),
                        self.listen(f"sh {FRONT}/explain.sh . {AUDITOR}", keep / "explain")]
        door = Door(self.folder, "--public", self.folder.public, "--keep", self.folder.public, "--serve", keep / "serve",
                    "--audit", keep / "audit", "--explain", keep / "explain", "--report-every", 0.01, user=NOBODY)
        door.socket = str(keep / "http")
        door.words[door.words.index("--listen") + 1] = "unix:" + door.socket
        return door

    def listen(self, command, path):
        """A socket that starts the program for each connection, one at a time."""
        process = subprocess.Popen(
            ["socat", f"UNIX-LISTEN:{path},fork,max-children=1,user={NOBODY},unlink-early", f"EXEC:{command}"],
            cwd=self.folder.path, stderr=subprocess.DEVNULL, start_new_session=True)
        end = time.monotonic() + PATIENCE
        while not pathlib.Path(path).exists() and time.monotonic() < end:
            time.sleep(0.01)
        return process

    def tearDown(self):
        super().tearDown()
        for process in self.sockets:
            os.killpg(process.pid, signal.SIGTERM)
            process.wait()

    async def test_why_comes_from_the_other_user(self):
        self.door.start()
        async with self.door.session() as session:
            await self.door.ready(session)
            await self.client(session, 0, 5)
            lines = [line_of("sum", row, row) for row in range(20)]
            found = await asyncio.gather(*(ask(session, line, "/why") for line in lines))
        self.end_and_check()
        for row, (status, body) in enumerate(found):
            self.assertEqual((status, json.loads(body)["row"]), (200, row), body)

    async def test_the_door_reads_neither_table_nor_journal(self):
        for name in ("table.csv", "answers.journal"):
            run = subprocess.run(["cat", self.folder.path / name], user=NOBODY, extra_groups=[], capture_output=True)
            self.assertNotEqual(run.returncode, 0, name)
        self.door.start()
        async with self.door.session() as session:
            await self.door.ready(session)
            await self.client(session, 0, 5)
            owner = pathlib.Path(f"/proc/{self.door.process.pid}").stat().st_uid
            await self.until((self.folder.public / "report.jsonl").exists)
        self.assertEqual(owner, NOBODY)
        self.end_and_check()


if __name__ == "__main__":
    unittest.main()

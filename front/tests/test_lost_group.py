"""A group that was answered and kept, and no reply left: the case in which the order of asking again matters, worked out
by hand, a history that is nearly full, and an answer that somebody got by hand."""
import csv
import subprocess
import sys
import unittest

from case import DoorCase
from kit import AUDITOR, COLUMNS, FRONT, ask, health, line_of

sys.path.insert(0, str(FRONT))
from doorway.transcript import Transcript  # noqa: E402

BEFORE = b'{"ask":"max","column":"bonus","where":"k = 0 or k = 3"}'
DENIED = b'{"ask":"max","column":"bonus","where":"k = 0 or k = 1 or k = 2"}'
ANSWERED = b'{"ask":"max","column":"bonus","where":"k = 1 or k = 2"}'
BONUSES = [5, 4, 7, 5, 1, 1]


class LostGroup(DoorCase):
    def serve(self, lines):
        """Asks the program itself, beside the door."""
        run = subprocess.run([AUDITOR, "serve", "--batch", "64"], cwd=self.folder.path, input=b"".join(line + b"\n" for line in lines),
                             capture_output=True, check=True)
        return run.stdout.split(b"\n")[:-1]

    def new_table(self, bonuses):
        """Another table in place of the random one, with a new journal."""
        rows = [("QA", place, 1000 + place, bonus) for place, bonus in enumerate(bonuses)]
        for folder, width in ((self.folder.path, 4), (self.folder.public, 2)):
            with open(folder / "table.csv", "w", newline="") as file:
                csv.writer(file).writerows([[c["name"] for c in COLUMNS[:width]], *[row[:width] for row in rows]])
        (self.folder.path / "answers.journal").unlink()
        subprocess.run([AUDITOR, "init"], cwd=self.folder.path, check=True)
        self.folder.rows = rows

    async def test_a_denial_that_became_an_answer_is_asked_last(self):
        """The greatest of rows 0 and 3 is 5. The greatest of 0, 1 and 2 might be less, which would give row 3 away, so it
        is denied. That of 1 and 2 is 7: so that of 0, 1 and 2 is 7 as well, and is answered from then on."""
        self.new_table(BONUSES)
        self.door.start()
        async with self.door.session() as session:
            await self.door.ready(session)
            self.assertEqual(await ask(session, BEFORE), (200, b'{"max":5}\n'))
        self.assertEqual(self.door.stop(), 0)
        self.hold([DENIED, ANSWERED])
        self.assertEqual(self.serve([DENIED, ANSWERED]), [b'{"denied":"unsafe"}', b'{"max":7}'])
        self.door.start()
        async with self.door.session() as session:
            await self.door.ready(session)
        self.assertEqual(self.door.stop(), 0)
        self.assertEqual(self.folder.transcript(), [(BEFORE, b'{"max":5}'), (ANSWERED, b'{"max":7}'), (DENIED, b'{"max":7}')])
        self.assertEqual(self.folder.simulate(), (0, ""))
        self.assertEqual(self.folder.replay(), [b'{"max":5}', b'{"max":7}', b'{"max":7}'])

    def hold(self, lines):
        """As the door left it when it was killed with these questions at the program."""
        transcript = Transcript(self.folder.public)
        transcript.hold(lines)
        transcript.close()

    async def test_an_answer_that_somebody_got_by_hand_is_a_gap_and_the_door_goes_on(self):
        self.door.start()
        async with self.door.session() as session:
            await self.door.ready(session)
            await self.ask(session, ("sum", 0, 199), line_of("sum", 0, 199))
        self.assertEqual(self.door.stop(), 0)
        self.assertEqual(self.serve([line_of("sum", 1, 199)])[0], b'{"denied":"unsafe"}')
        self.serve([line_of("sum", 0, 99)])
        # By the transcript alone the sum over 1 to 99 could be answered; with row 0 apart from the others it can't.
        self.hold([line_of("sum", 1, 99), line_of("sum", 0, 99), line_of("count", 0, 5)])
        self.door.start()
        async with self.door.session() as session:
            await self.door.ready(session)
            self.assertEqual(await ask(session, line_of("count", 0, 5)), (200, b'{"count":6}\n'))
            await self.ask(session, ("sum", 0, 99), line_of("sum", 0, 99))
        self.assertEqual(self.door.stop(), 0)
        self.assertIn("the transcript has a gap", self.folder.said())
        self.check_told()
        self.assertEqual(self.folder.simulate()[0], 14)

    def fill(self, left):
        """A journal with room for so many records: the sum over all rows again and again, which is lawful."""
        rows = len(self.folder.rows)
        everybody = (1 << rows) - 1
        record = (b"\0" + sum(row[2] for row in self.folder.rows).to_bytes(8, "big")
                  + everybody.to_bytes((rows + 7) // 8, "little"))
        path = self.folder.path / "answers.journal"
        text, count = path.read_bytes()[:20], 65_536 - left
        for size in [64] * (count // 64) + [count % 64] * (count % 64 > 0):
            text += bytes([1, size]) + record * size
        path.write_bytes(text + b"\0")

    async def test_a_full_history_is_said_and_what_was_answered_comes_again(self):
        """The transcript knows less than the journal here: it is the case of many records after crashes."""
        self.fill(3)
        lines = [line_of("sum", 0, 199), *(line_of("sum", 0, high) for high in (99, 149, 49))]
        self.door.start()
        async with self.door.session() as session:
            await self.door.ready(session)
            for line, high in zip(lines[:3], (199, 99, 149)):
                await self.ask(session, ("sum", 0, high), line)
            self.assertEqual(await ask(session, lines[3]), (200, b'{"refused":"full"}\n'))
            self.door.kill_programs()
            self.assertEqual(await ask(session, lines[3]), (200, b'{"refused":"full"}\n'))
            self.assertEqual(await ask(session, line_of("count", 0, 5)), (200, b'{"count":6}\n'))
            self.assertEqual(await ask(session, lines[1]), (200, self.told[1][2]))
            self.assertEqual((await health(session))["records"], 3)
        self.assertEqual(self.door.stop(), 0)
        self.hold([lines[3], line_of("sum", 3, 60)])
        self.door.start()
        async with self.door.session() as session:
            await self.door.ready(session)
        self.assertEqual(self.door.stop(), 0)
        self.assertEqual(len(self.folder.journal()), 65_536)
        self.check_all()


if __name__ == "__main__":
    unittest.main()

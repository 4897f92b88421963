"""A program that lies about a group: nobody is told a reply of it, and the questions are asked again."""
import asyncio
import os
import unittest

from case import DoorCase
from kit import AUDITOR, HERE, Door, health

LIES = ("doubled", "lost", "last_lost", "exchanged_with_the_last", "exchanged_kinds", "invented", "endless", "silent")


class Lies(DoorCase):
    def make_door(self):
        return Door(self.folder, "--group-patience", 4, auditor=str(HERE / "liar.py"))

    async def lied_to(self, lie):
        """Twelve ask at once, so that most groups have several questions, and go on until it has lied."""
        os.environ.update(LIE=lie, AUDITOR=AUDITOR)
        lied = self.folder.path / "lied"
        self.door.start()
        async with self.door.session() as session:
            await self.door.ready(session)
            await asyncio.gather(*(self.client(session, number, 2, patient=True, enough=lied.exists) for number in range(12)))
            said = await health(session)
        self.assertGreater(said["restarts"], 0, lie)
        self.assertGreaterEqual(len(self.told), 12 * 2)
        self.end_and_check()


def add(lie):
    async def test(self):
        await self.lied_to(lie)
    setattr(Lies, f"test_nobody_is_told_a_reply_that_is_{lie}", test)


for one in LIES:
    add(one)


if __name__ == "__main__":
    unittest.main()

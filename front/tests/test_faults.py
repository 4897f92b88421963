"""Faults of the outside: a full disk, another table, an older journal, a full history, an absent program, too many askers."""
import asyncio
import json
import os
import resource
import shutil
import signal
import unittest

from case import DoorCase
from kit import AUDITOR, AWAY, FRONT, HERE, PATIENCE, Door, Folder, ask, health, line_of


def question(kind, low, high):
    return (kind, low, high), line_of(kind, low, high)


class Faults(DoorCase):
    async def start(self, session, *words):
        self.door.words += [str(word) for word in words]
        self.door.start()
        await self.door.ready(session)

    async def test_a_full_disk_of_the_transcript_loses_nothing(self):
        async with self.door.session() as session:
            await self.start(session)
            await self.client(session, 0, 10)
            size = (self.folder.public / "transcript.jsonl").stat().st_size
            # Some bytes more, so that a pair is cut in the middle. The program's own files have no such limit.
            resource.prlimit(self.door.process.pid, resource.RLIMIT_FSIZE, (size + 1000, resource.RLIM_INFINITY))
            for number in range(1, 100):
                asking = [self.client(session, 100 * number + one, 3) for one in range(8)]
                await asyncio.gather(*asking)
                if self.door.process.poll() is not None:
                    break
            await self.ends()
            self.assertIn("transcript.jsonl: ", self.folder.said())
            self.check_told(torn=True)
            self.door.start()
            await self.door.ready(session)
            await self.client(session, 1, 10)
        self.end_and_check()

    async def test_what_leaves_for_the_program_is_written_down_first(self):
        self.door = Door(self.folder, auditor=str(HERE / "watcher.py"))
        os.environ.update(AUDITOR=AUDITOR, KEEP=str(self.folder.public))
        async with self.door.session() as session:
            await self.start(session)
            await asyncio.gather(*(self.client(session, number, 10) for number in range(8)))
        self.assertEqual(self.door.stop(), 0)
        self.assertFalse((self.folder.public / "unwritten").exists())
        self.check_all()

    async def test_another_table_is_not_served_with_this_transcript(self):
        async with self.door.session() as session:
            await self.start(session)
            await self.client(session, 0, 5)
        self.assertEqual(self.door.stop(), 0)
        for name in ("table.csv", "schema.json"):
            path = self.folder.public / name
            text = path.read_bytes()
            path.write_bytes(text.replace(b"QA", b"AQ") if name == "table.csv" else text + b" ")
            self.door.start()
            await self.ends()
            self.assertIn("isn't the one that transcript.jsonl was made over", self.folder.said())
            path.write_bytes(text)
        self.door.start()
        async with self.door.session() as session:
            await self.door.ready(session)
        self.end_and_check()

    async def test_another_schema_is_served_once_somebody_has_looked_at_it(self):
        async with self.door.session() as session:
            await self.start(session)
            await self.client(session, 0, 5)
            self.assertEqual(self.door.stop(), 0)
            schema, mark = self.folder.public / "schema.json", self.folder.public / "table.sha256"
            schema.write_text(schema.read_text() + "\n")
            self.door.start()
            await self.ends()
            self.assertIn(f"If only totals to protect were added, and auditor simulate ends with 0 over the transcript, remove {mark}",
                          self.folder.said())
            mark.unlink()
            self.door.start()
            await self.door.ready(session)
            await self.client(session, 1, 5)
        self.end_and_check()

    async def test_an_older_journal_is_seen_at_the_next_report(self):
        journal = self.folder.path / "answers.journal"
        async with self.door.session() as session:
            await self.start(session)
            await self.ask(session, *question("sum", 0, 199))
            shutil.copy(journal, self.folder.path / "copy")
            await self.ask(session, *question("sum", 0, 99))
            await self.ask(session, *question("max", 0, 99))
        self.assertEqual(self.door.stop(), 0)
        last = journal.read_bytes()
        shutil.copy(self.folder.path / "copy", journal)
        self.door.words += ["--report-every", "0.05"]
        self.door.start()
        await self.ends()
        self.assertIn("the journal holds 1 answers and 3 were given: it is an older copy", self.folder.said())
        # A door that is started again, and makes no reports, must not forget it.
        self.door.words = self.door.words[:-2]
        self.door.start()
        await self.ends()
        self.assertIn("stopped.txt: ", self.folder.said().strip().rsplit("\n", 1)[-1])
        journal.write_bytes(last)
        (self.folder.public / "stopped.txt").unlink()
        async with self.door.session() as session:
            await self.start(session)
            await self.ask(session, *question("count", 0, 99))
        self.end_and_check()

    async def test_a_second_door_over_the_same_transcript_ends(self):
        async with self.door.session() as session:
            await self.start(session)
            second = Door(self.folder)
            second.start()
            self.assertEqual(await asyncio.to_thread(second.process.wait, PATIENCE), 1)
            self.assertIn("another door keeps", self.folder.said())
            await self.client(session, 0, 5)
        self.end_and_check()

    async def test_a_report_is_made_in_a_rest_and_ends_for_a_question(self):
        self.door = Door(self.folder, "--report-every", 0.1, auditor=str(HERE / "slow_audit.py"))
        os.environ["AUDITOR"] = AUDITOR
        async with self.door.session() as session:
            await self.start(session)
            await self.ask(session, *question("sum", 0, 99))
            await self.until((self.folder.public / "report.jsonl.new").exists)
            # The report goes on until it is ended.
            self.assertEqual((await self.ask(session, *question("sum", 0, 199)))[0], 200)
            async with session.get("/report.jsonl") as response:
                self.assertEqual((response.status, await response.json()), (404, {"error": "not made yet", "code": "missing"}))
        self.door.stop(signal.SIGKILL)
        self.door = Door(self.folder, "--report-every", 0.1)
        async with self.door.session() as session:
            await self.start(session)
            await self.until((self.folder.public / "report.jsonl").exists)
            async with session.get("/report.jsonl") as response:
                text = await response.text()
        last = json.loads(text.strip().rsplit("\n", 1)[-1])
        self.assertEqual(last, {"audited": 2, "columns": 2, "rows": 200})
        self.end_and_check()

    async def test_an_absent_program_is_named_and_the_door_goes_on_once_it_is_there(self):
        program = self.folder.path / "program"
        self.door = Door(self.folder, auditor=str(program))
        self.door.start()
        async with self.door.session() as session:
            await self.door.ready(session, "stopped")
            status, body = await ask(session, line_of("sum", 0, 99))
            self.assertEqual(status, 503)
            self.assertIn(AWAY["gone"], json.loads(body)["error"])
            self.assertIn("No such file", self.folder.said())
            program.symlink_to(AUDITOR)
            await self.door.ready(session, "serving")
            await self.client(session, 0, 5)
        self.end_and_check()

    async def test_a_damaged_journal_is_named(self):
        journal = self.folder.path / "answers.journal"
        whole = journal.read_bytes()
        journal.write_bytes(whole[:8] + b"\7" + whole[9:])
        self.door.start()
        async with self.door.session() as session:
            await self.door.ready(session, "stopped")
            self.assertEqual((await health(session))["state"], f"stopped: {AWAY['9']}")
            self.assertIn("journal damaged at byte 8 (put back a copy of the journal that is at least as new as the last reply)",
                          self.folder.said())
            status, body = await ask(session, line_of("sum", 0, 99))
            self.assertEqual(status, 503)
            journal.write_bytes(whole)
            await self.door.ready(session, "serving")
            await self.client(session, 0, 5)
        self.end_and_check()

    async def test_askers_past_the_limit_are_turned_away_and_the_others_get_their_replies(self):
        async with self.door.session() as session:
            await self.start(session, "--waiting", 4)
            self.door.signal_programs(signal.SIGSTOP)
            asking = [asyncio.create_task(ask(session, line_of("count", 0, high))) for high in range(12)]
            await self.until(lambda: sum(one.done() for one in asking) == 8)
            self.door.signal_programs(signal.SIGCONT)
            replies = await asyncio.gather(*asking)
        self.assertEqual(sorted(status for status, _ in replies), [200] * 4 + [503] * 8)
        self.assertEqual(self.door.stop(), 0)

    async def test_an_asker_who_waited_too_long_finds_the_answer_in_the_transcript(self):
        async with self.door.session() as session:
            await self.start(session, "--asker-patience", 0.3)
            self.door.signal_programs(signal.SIGSTOP)
            line = line_of("sum", 0, 99)
            self.assertEqual((await ask(session, line))[0], 504)
            self.door.signal_programs(signal.SIGCONT)
            await self.until_health(session, "asked")
            self.told.append((("sum", 0, 99), line, (await ask(session, line))[1]))
            self.assertEqual((await health(session))["repeats"], 1)
        self.end_and_check()

    async def test_a_question_is_asked_though_its_asker_went_away(self):
        async with self.door.session() as session:
            await self.start(session)
            self.door.signal_programs(signal.SIGSTOP)
            asking = asyncio.create_task(ask(session, line_of("sum", 0, 99)))
            await self.until_health(session, "waiting")
            asking.cancel()
            with self.assertRaises(asyncio.CancelledError):
                await asking
            self.door.signal_programs(signal.SIGCONT)
            await self.ask(session, *question("sum", 0, 199))
        self.assertEqual(self.door.stop(), 0)
        self.assertEqual([line for line, _ in self.folder.transcript()], [line_of("sum", 0, 99), line_of("sum", 0, 199)])
        self.check_all()


class Causes(unittest.IsolatedAsyncioTestCase):
    """What is said of a program that doesn't begin. One of the test's own says it: what comes of it is the door's part."""

    def setUp(self):
        self.folder = Folder(4, init=False)
        self.addCleanup(self.folder.remove)
        self.program = self.folder.path / "auditor"

    def write_program(self, complaint, code):
        self.program.write_text(f"#!/bin/sh\necho '{complaint}' >&2\nexit {code}\n")
        self.program.chmod(0o755)

    async def state(self, *words):
        """The door's state once it has given up to wait, which is what an asker is told then."""
        door = Door(self.folder, *words, auditor=str(self.program)).start()
        self.addCleanup(door.end)
        async with door.session() as session:
            await door.ready(session, "stopped")
            status, body = await ask(session, line_of("sum", 0, 3))
            self.assertEqual(status, 503)
            state = (await health(session))["state"]
            self.assertIn(state.removeprefix("stopped: "), json.loads(body)["error"])
        self.assertEqual(await asyncio.to_thread(door.stop), 0)
        return state

    async def test_each_end_is_said_with_what_to_do(self):
        words = json.loads((FRONT / "words.json").read_text())["ended"]
        for complaint, code in (("schema: fault 3", 3), ("no journal", 7), ("journal is of another table: rows 6, now 5", 10),
                                ("record 1 should not have been released", 12), ("schema: group 63 is bad", 16)):
            with self.subTest(complaint):
                self.write_program(complaint, code)
                self.assertEqual(await self.state(), f"stopped: {AWAY[str(code)]}")
                self.assertIn(f"{complaint} ({words[str(code)]})\n", self.folder.said())

    async def test_an_end_that_isnt_known_is_said_by_its_code(self):
        self.write_program("", 99)
        self.assertEqual(await self.state(), f"stopped: {AWAY['other']}")
        self.assertIn("the program ended with code 99", self.folder.said())

    async def test_a_bad_group_is_said_through_a_socket_too(self):
        self.write_program("schema: group 0 is bad", 16)
        path = str(self.folder.path / "serve.sock")
        gone = await asyncio.start_unix_server(lambda _, writer: writer.close(), path)
        self.addAsyncCleanup(gone.wait_closed)
        self.addCleanup(gone.close)
        self.assertEqual(await self.state("--serve", path), f"stopped: {AWAY['16']}")
        self.assertIn("schema: group 0 is bad (in schema.json, under protect", self.folder.said())


class Known(DoorCase):
    async def test_an_answer_comes_again_from_the_transcript_and_a_denial_is_asked_anew(self):
        self.door.start()
        async with self.door.session() as session:
            await self.door.ready(session)
            answer, denial = line_of("sum", 0, 99), line_of("sum", 0, 0)
            first = [await ask(session, answer) for _ in range(4)]
            self.assertEqual(len(set(first)), 1)
            denied = [await ask(session, denial) for _ in range(3)]
            self.assertEqual(set(denied), {(200, b'{"denied":"unsafe"}\n')})
            said = await health(session)
        self.assertEqual((said["asked"], said["repeats"], said["records"]), (4, 3, 1))
        self.assertEqual(self.door.stop(), 0)
        self.assertEqual(len(self.folder.journal()), 1)
        # The next door has it from the file.
        self.door.start()
        async with self.door.session() as session:
            await self.door.ready(session)
            self.assertEqual(await ask(session, answer), first[0])
            self.assertEqual((await health(session))["repeats"], 1)
        self.assertEqual(self.door.stop(), 0)
        self.assertEqual(len(self.folder.journal()), 1)

    async def test_many_kinds_of_lines_leave_only_decisions_in_the_transcript(self):
        lines = [line_of("sum", 0, 99), line_of("count", 0, 0), b"x", line_of("sum", 0, 0), b'{"ask":"count","where":"("}',
                 line_of("sum", 500, 600)]
        self.door.start()
        async with self.door.session() as session:
            await self.door.ready(session)
            replies = [(await ask(session, line))[1][:-1] for line in lines]
        self.assertEqual(self.door.stop(), 0)
        self.assertEqual(replies[1:], [b'{"count":1}', b'{"refused":"line"}', b'{"denied":"unsafe"}', b'{"refused":"where","at":1}',
                                       b'{"refused":"empty"}'])
        self.assertEqual(self.folder.transcript(), [(lines[0], replies[0]), (lines[3], replies[3])])
        self.check_all()

    async def test_a_line_is_kept_byte_for_byte(self):
        lines = [b" \t" + line_of("sum", 0, 99) + b"  ", line_of("sum", 0, 98).replace(b"sum", b"\\u0073um")]
        self.door.start()
        async with self.door.session() as session:
            await self.door.ready(session)
            for line in lines:
                self.assertEqual((await ask(session, line))[0], 200)
        self.assertEqual(self.door.stop(), 0)
        self.assertEqual([line for line, _ in self.folder.transcript()], lines)
        self.check_all()

    async def test_many_who_ask_the_same_at_once_make_one_record(self):
        self.door.start()
        async with self.door.session() as session:
            await self.door.ready(session)
            self.door.signal_programs(signal.SIGSTOP)
            asking = [asyncio.create_task(ask(session, line_of("sum", 0, 99))) for _ in range(100)]
            await self.until_health(session, "waiting", 100)
            self.door.signal_programs(signal.SIGCONT)
            replies = await asyncio.gather(*asking)
        self.assertEqual(self.door.stop(), 0)
        self.assertEqual(len(set(replies)), 1)
        self.assertEqual(json.loads(replies[0][1]), self.folder.due("sum", 0, 99))
        self.assertEqual(len(self.folder.journal()), 1)

    async def test_a_verdict_is_what_asking_would_say_and_makes_no_record(self):
        self.door.start()
        async with self.door.session() as session:
            await self.door.ready(session)
            for line, verdict in [(line_of("sum", 0, 99), "released"), (line_of("sum", 0, 0), "unsafe"),
                                  (line_of("count", 0, 0), "count"), (b"x", "refused"), (line_of("max", 7, 7), "unsafe")]:
                self.assertEqual(await ask(session, line, "/would"), (200, b'{"verdict":"%s"}\n' % verdict.encode()))
            self.assertEqual((await health(session))["asked"], 0)
            await ask(session, line_of("sum", 0, 99))
            self.assertEqual(await ask(session, line_of("sum", 0, 98), "/would"), (200, b'{"verdict":"unsafe"}\n'))
        self.assertEqual(self.door.stop(), 0)
        self.assertEqual(len(self.folder.journal()), 1)

    async def test_the_files_are_sent_as_they_are(self):
        (self.folder.public / "notes.json").write_text('{"title":"<b>\\u00e9"}')
        self.door.start()
        async with self.door.session() as session:
            await self.door.ready(session)
            await self.client(session, 0, 20)
            for name, kind in (("schema.json", "application/json"), ("notes.json", "application/json"),
                               ("table.csv", "text/csv"), ("transcript.jsonl", "application/jsonl")):
                async with session.get("/" + name) as response:
                    self.assertEqual(await response.read(), (self.folder.public / name).read_bytes(), name)
                    self.assertEqual(response.content_type, kind)
                    self.assertEqual(response.headers["X-Content-Type-Options"], "nosniff", name)
                async with session.head("/" + name) as response:
                    self.assertEqual((response.status, await response.read()), (200, b""), name)
                    self.assertEqual(response.content_length, (self.folder.public / name).stat().st_size, name)
            async with session.get("/tables.json") as response:
                self.assertEqual(await response.json(), [])
        self.end_and_check()


if __name__ == "__main__":
    unittest.main()

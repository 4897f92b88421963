"""doctor.py: a folder as it should be has nothing wrong, and each thing that is out of place is named."""
import os
import pathlib
import pwd
import shutil
import socket
import subprocess
import sys
import tempfile
import time
import unittest

from kit import AUDITOR, FRONT, Folder


def doctor(folder, *words, program=AUDITOR):
    return subprocess.run([sys.executable, FRONT / "doctor.py", folder, "--auditor", program, *words], capture_output=True, text=True)


def has_user(name):
    try:
        return bool(pwd.getpwnam(name))
    except KeyError:
        return False


class Doctor(unittest.TestCase):
    def setUp(self):
        self.folder = Folder(rows=20)
        self.path = self.folder.path
        self.path.chmod(0o700)
        (self.path / "table.csv").chmod(0o600)

    def tearDown(self):
        self.folder.remove()

    def assert_wrong(self, words, *arguments):
        """Something is wrong, in these words and no others."""
        done = doctor(self.path, *arguments)
        lines = [line for line in done.stdout.split("\n") if line.startswith("WRONG")]
        self.assertEqual((done.returncode, len(lines)), (1, 1), done.stdout)
        self.assertIn(words, lines[0])

    def test_a_folder_as_it_should_be(self):
        before = {path: path.stat().st_mtime_ns for path in self.path.rglob("*")}
        done = doctor(self.path)
        self.assertEqual((done.returncode, done.stderr), (0, ""), done.stdout)
        self.assertIn("belong together", done.stdout)
        self.assertNotIn("WRONG", done.stdout)
        self.assertEqual({path: path.stat().st_mtime_ns for path in self.path.rglob("*")}, before)

    def test_while_a_run_has_the_journal(self):
        run = subprocess.Popen([AUDITOR, "serve"], cwd=self.path, stdin=subprocess.PIPE, stdout=subprocess.PIPE)
        run.stdin.write(b'{"ask":"count","where":"all"}\n')
        run.stdin.flush()
        self.assertEqual(run.stdout.readline(), b'{"count":20}\n')
        self.assertEqual(doctor(self.path).returncode, 0)
        run.communicate()

    def test_a_missing_journal_is_wrong_since_nothing_can_be_asked(self):
        (self.path / "answers.journal").unlink()
        self.assert_wrong(f"answers.journal: there is none, so nothing can be asked. If there never was one: (cd {self.path} && auditor init)")

    def test_missing_files(self):
        (self.path / "public" / "table.csv").unlink()
        self.assert_wrong("can't be compared")
        shutil.rmtree(self.path / "public")
        (self.path / "schema.json").unlink()
        self.assert_wrong("schema.json: not in")

    def test_keys_are_the_owners_alone(self):
        (self.path / "keys.csv").write_text("row,key\n")
        (self.path / "keys.csv").chmod(0o600)
        self.assertEqual(doctor(self.path).returncode, 0)
        (self.path / "keys.csv").chmod(0o644)
        self.path.chmod(0o755)
        self.assert_wrong("others than the owner may read keys.csv")
        (self.path / "keys.csv").rename(self.path / "public" / "keys.csv")
        self.assert_wrong("public/keys.csv: for all to read")

    def test_what_the_program_refuses(self):
        with open(self.path / "answers.journal", "r+b") as file:
            file.write(b"\x07")
        self.assert_wrong("no journal")

    def test_a_table_that_changed(self):
        text = (self.path / "table.csv").read_text()
        (self.path / "table.csv").write_text(text.replace("QA", "Q&A"))
        self.assert_wrong("not the public columns of the table as it is now")

    def test_a_secret_for_all_to_read(self):
        shutil.copy(self.path / "table.csv", self.path / "public" / "table.csv")
        self.assert_wrong("has a secret column, for all to read")

    def test_modes(self):
        (self.path / "table.csv").chmod(0o644)
        self.assertEqual(doctor(self.path).returncode, 0)          # nobody else comes into the folder
        self.path.chmod(0o755)
        self.assert_wrong("others than the owner may read table.csv")

    def test_a_journal_that_may_not_be_written(self):
        (self.path / "answers.journal").chmod(0o400)
        self.assert_wrong("may not be written, as after a sync that failed")

    def test_a_journal_behind_a_link(self):
        (self.path / "answers.journal").rename(self.path / "elsewhere")
        (self.path / "answers.journal").symlink_to("elsewhere")
        self.assert_wrong("a link, which is never followed")

    def test_a_spare_whose_disk_is_away(self):
        (self.path / "answers.spare").symlink_to("/nothing/answers.spare")
        self.assert_wrong("Is its disk mounted?")

    def test_a_clock_that_went_back(self):
        later = time.time() + 86400
        os.utime(self.path / "table.csv", (later, later))
        self.assert_wrong("before the last change of table.csv")

    def test_sockets_that_are_not_there(self):
        with tempfile.TemporaryDirectory() as sockets:
            done = doctor(self.path, "--sockets", sockets)
            self.assertEqual(done.returncode, 1)
            wanted = "no user and group auditor-door" if "no user and group" in done.stdout else "serve.sock: no socket"
            self.assertIn(wanted, done.stdout)

    def test_no_door_is_nothing_to_do_and_a_door_without_sockets_is_to_look_at(self):
        words = ("--sockets", self.path / "nothing")
        if not has_user("auditor-door"):
            self.assertIn("ok     no door is set up: nothing to do\n", doctor(self.path, *words).stdout)
        (self.path / "public" / "transcript.jsonl").touch()
        said = doctor(self.path, *words).stdout
        self.assertIn("look   " + str(self.path / "nothing") + ": no sockets, so the door starts the program itself", said)
        self.assertNotIn("no door is set up", said)

    def test_whoever_reads_may_stop_reading(self):
        """What is written to a pipe that nobody reads ends it, without a word on standard error."""
        reading, writing = os.pipe()
        os.close(reading)
        command = [sys.executable, FRONT / "doctor.py", self.path, "--auditor", AUDITOR]
        for world in ({}, {"PYTHONUNBUFFERED": "1"}):
            done = subprocess.run(command, stdout=writing, stderr=subprocess.PIPE, text=True, env={**os.environ, **world})
            self.assertEqual((done.returncode, done.stderr), (1, ""), world)
        os.close(writing)

    def test_a_socket_that_all_may_use(self):
        with tempfile.TemporaryDirectory() as sockets:
            for name in ("serve", "audit", "explain"):
                with socket.socket(socket.AF_UNIX) as listening:
                    listening.bind(f"{sockets}/{name}.sock")
                pathlib.Path(sockets, f"{name}.sock").chmod(0o666)
            done = doctor(self.path, "--sockets", sockets)
            self.assertEqual(done.returncode, 1)
            self.assertRegex(done.stdout, "no user and group auditor-door|others than the group auditor-door may connect")

    def test_without_the_program(self):
        done = doctor(self.path, program="/nothing/auditor")
        self.assertEqual(done.returncode, 1, done.stdout)
        self.assertIn("WRONG  no program", done.stdout)
        self.assertIn("demo/run.sh builds it", done.stdout)
        self.assertIn("\n1 wrong, ", done.stdout)
        (self.path / "answers.journal").unlink()
        self.assertIn("\n2 wrong, ", doctor(self.path, program="/nothing/auditor").stdout)

    def test_wrong_arguments(self):
        for words in ((), ("/nothing",), (self.path, "--wrong")):
            self.assertEqual(subprocess.run([sys.executable, FRONT / "doctor.py", *words], capture_output=True).returncode, 2)


if __name__ == "__main__":
    unittest.main()

"""What each script of the front says of its arguments, and of what is missing, before it does anything. No program is needed.

/usr/bin/python3 -m unittest test_help
"""

import os
import pathlib
import shutil
import subprocess
import sys
import tempfile
import unittest
from unittest import mock

FRONT = pathlib.Path(__file__).resolve().parent.parent
TOP = FRONT.parent
sys.path.insert(0, str(FRONT))

import plan  # noqa: E402
from preparing.faults import Fault  # noqa: E402


def run(*words, **world):
    return subprocess.run([str(word) for word in words], capture_output=True, text=True, stdin=subprocess.DEVNULL, env={"PATH": "/usr/bin:/bin", **world})


class Help(unittest.TestCase):
    def setUp(self):
        self.folder = pathlib.Path(tempfile.mkdtemp(prefix="help-"))
        self.addCleanup(shutil.rmtree, self.folder)

    def test_each_script_shows_its_usage(self):
        for script in ("ask.py", "plan.py", "doctor.py", "prepare.py", "near.py", "tokens.py", "door.py"):
            done = run(sys.executable, FRONT / script, "--help")
            self.assertEqual((done.returncode, done.stderr), (0, ""), script)
            self.assertIn(script, done.stdout)

    def test_the_door_reads_its_arguments_without_aiohttp(self):
        # Without site-packages there is none.
        bare = (sys.executable, "-S", FRONT / "door.py")
        done = run(*bare, "--help")
        self.assertEqual((done.returncode, done.stderr), (0, ""))
        self.assertIn("usage: door.py", done.stdout)
        done = run(*bare, "--batch", "65")
        self.assertEqual(done.returncode, 2)
        self.assertIn("--batch is 1 to 64", done.stderr)
        done = run(*bare)
        self.assertEqual(done.returncode, 1)
        self.assertIn("door: aiohttp is missing: apt-get install --no-install-recommends python3-aiohttp", done.stderr)
        self.assertNotIn("Traceback", done.stderr)

    def test_ask_says_last_what_is_missing(self):
        for words, due in (((), "a folder that has the table, or the address of a front door, is missing"), (("--login", "ann"), "is missing"),
                           (("--wrong", "table"), "--wrong isn't an option here")):
            done = run(sys.executable, FRONT / "ask.py", *words)
            self.assertEqual((done.returncode, done.stdout), (2, ""), words)
            self.assertIn(due, done.stderr.splitlines()[-1])

    def test_plan_finds_the_program_in_the_path_or_by_a_path(self):
        program = self.folder / "auditor"
        program.write_text("#!/bin/sh\n")
        program.chmod(0o700)
        with mock.patch.dict(os.environ, {"PATH": str(self.folder)}):
            self.assertEqual(plan.program_of("auditor"), str(program))
            self.assertEqual(plan.program_of(str(program)), str(program))
            for name in ("auditer", str(self.folder / "nothing")):
                with self.assertRaisesRegex(Fault, "there is no program .*demo/run.sh builds it"):
                    plan.program_of(name)

    def test_the_demo_of_the_door_proves_nothing_by_itself(self):
        for name in ("front", "demo", "bin"):
            (self.folder / name).mkdir()
        shutil.copy(FRONT / "demo.sh", self.folder / "front")
        shutil.copy(TOP / "demo/build.sh", self.folder / "demo")
        (self.folder / "bin/rt").write_text("#!/bin/sh\ntouch ran\n")
        (self.folder / "bin/rt").chmod(0o700)
        done = run(self.folder / "front/demo.sh", PATH=f"{self.folder}/bin:/usr/bin:/bin")
        self.assertEqual((done.returncode, done.stdout), (1, ""))
        # Where the package is missing that is said first.
        self.assertRegex(done.stderr, "demo/run.sh proves and builds it, half an hour or more the first time|apt-get install .*python3-aiohttp")
        self.assertFalse(list(self.folder.rglob("ran")))


if __name__ == "__main__":
    unittest.main()

"""demo/try.sh and demo/build.sh over a kit that isn't one: a script in its place that says and does what rt would."""
import os
import pathlib
import re
import shutil
import signal
import subprocess
import sys
import tempfile
import unittest

from kit import AUDITOR, FRONT, PATIENCE

TOP = FRONT.parent
# `rt try` runs the program over copies; `rt lib` and `rt run` say what a check says of a crate that it proves, or nothing if it was kept.
RT = f"""#!{sys.executable}
import os, pathlib, subprocess, sys, tempfile, time
words = sys.argv[1:]
if words[0] == "version":
    sys.exit(print("a kit"))
if words[0] == "try":
    if os.environ.get("HANGS") == "try":
        pathlib.Path(os.environ["TMPDIR"], "pid").write_text(str(os.getpid()))
        time.sleep(600)
    with tempfile.TemporaryDirectory() as folder:
        for name, file in (word.split("=") for flag, word in zip(words, words[1:]) if flag == "--data"):
            pathlib.Path(folder, name).write_bytes(pathlib.Path(file).read_bytes())
        done = subprocess.run([os.environ["AUDITOR"], *words[words.index("--") + 1:]], cwd=folder, stdin=sys.stdin)
    print("run=ended proved=no", file=sys.stderr)
    sys.exit(int(os.environ.get("ENDS", done.returncode)))
crate = pathlib.Path.cwd()
if crate.name == os.environ.get("FAILS"):
    print("fn it: not proved")
    sys.exit(1)
if crate.name == os.environ.get("HANGS"):
    time.sleep(600)
if not (crate / "out/proved").exists():
    print("fn it: proved")
    (crate / "out").mkdir(exist_ok=True)
    (crate / "out/proved").touch()
if words[0] == "run" and "BUILDS" in os.environ:
    (crate / "out/auditor").write_text("built")
    (crate / "out/auditor").chmod(0o755)
sys.exit(5 if words[0] == "run" else 0)
"""


class Demo(unittest.TestCase):
    def setUp(self):
        self.top = pathlib.Path(tempfile.mkdtemp(prefix="demo-"))
        shutil.copytree(TOP / "demo", self.top / "demo")
        shutil.copy(TOP / "crates.txt", self.top)
        for crate in re.findall(r"(?m)^([a-z_]+)\b", (TOP / "crates.txt").read_text()):
            (self.top / "crates" / crate).mkdir(parents=True)
        shutil.copytree(TOP / "crates/auditor/data", self.top / "crates/auditor/data")
        (self.top / "bin").mkdir()
        (self.top / "tmp").mkdir()
        (self.top / "bin/rt").write_text(RT)
        (self.top / "bin/rt").chmod(0o755)
        self.world = {"PATH": f"{self.top}/bin:/usr/bin:/bin", "AUDITOR": AUDITOR, "TMPDIR": str(self.top / "tmp")}
        self.build = ["sh", "-c", f"top={self.top}; . {self.top}/demo/build.sh; build"]

    def tearDown(self):
        shutil.rmtree(self.top)

    def run_it(self, *words, **world):
        return subprocess.run(words, env=self.world | world, capture_output=True, text=True, timeout=PATIENCE)


class Try(Demo):
    def test_it_answers_says_that_nothing_was_proved_and_leaves_nothing(self):
        before = sorted(self.top.rglob("*"))
        done = self.run_it(self.top / "demo/try.sh")
        self.assertEqual(done.returncode, 0, done.stderr)
        due = (TOP / "demo/replies.jsonl").read_text().split("\n")[:-1]
        asked = [line for line in (TOP / "demo/questions.jsonl").read_text().split("\n") if line]
        lines = done.stdout.split("\n")[:-1]
        self.assertEqual(lines[::2], asked)
        self.assertEqual([line.split()[0] for line in lines[1::2]], due)
        for reply, words in (('{"denied":"unsafe"}', "not answered"), ('{"num":160250,"den":3}', "an average: num divided by den"), ('{"refused":"empty"}', "no row")):
            self.assertTrue(all(words in line for line in lines if line.strip().startswith(reply)), reply)
        said = done.stderr.strip().split("\n")
        self.assertIn("nothing here is proved", said[0])
        self.assertIn("nothing was proved", said[-1])
        self.assertEqual(sorted(self.top.rglob("*")), before)

    def office(self):
        """A folder with a table of four people, as prepare.py makes one."""
        (self.top / "front").symlink_to(FRONT)
        table = self.top / "office"
        table.mkdir()
        (table / "schema.json").write_text('{"columns":[{"name":"team","is":"text"},{"name":"pay","is":"sum"}]}')
        (table / "table.csv").write_text("team,pay\nA,100\nA,210\nB,330\nB,460\n")
        return table

    def test_a_folder_is_asked_and_stays_as_it_is(self):
        table = self.office()
        before = {path: path.read_bytes() for path in table.iterdir()}
        done = self.run_it(self.top / "demo/try.sh", table, "sum pay where team = 'A'", "totals pay by team", "count", "sum pay")
        # The total of A is 310, of B 790, of all four 1,100.
        self.assertEqual(done.stdout, "sum pay where team = 'A'\n    310\ntotals pay by team\n    A: 310\n    B: 790\ncount\n    4\nsum pay\n    1100\n")
        self.assertEqual(done.returncode, 0, done.stderr)
        said = done.stderr.strip().split("\n")
        self.assertIn("nothing here is proved", said[0])
        self.assertIn("not to be published", said[0])
        self.assertIn("as if nothing had been asked before", done.stderr)
        self.assertIn("nothing was proved or kept, and these answers are not to be published", said[-1])
        self.assertEqual({path: path.read_bytes() for path in table.iterdir()}, before)
        self.assertEqual(os.listdir(self.top / "tmp"), [])

    def test_its_journal_counts_and_isnt_written(self):
        table = self.office()
        subprocess.run([AUDITOR, "init"], cwd=table, check=True)
        subprocess.run([AUDITOR, "serve"], cwd=table, input=b'{"ask":"sum","column":"pay","where":"all"}\n', stdout=subprocess.PIPE, check=True)
        before = (table / "answers.journal").read_bytes()
        (table / "table.csv").write_text("team,pay\nA,100\nA,210\nB,330\nC,460\n")
        done = self.run_it(self.top / "demo/try.sh", table, "sum pay where not team = 'C'")
        # With the total of all this would give C's one number.
        self.assertEqual(done.returncode, 1)
        self.assertIn("\n    not answered: ", done.stdout)
        self.assertIn("the answers of its journal count", done.stderr)
        self.assertEqual((table / "answers.journal").read_bytes(), before)

    def test_questions_may_be_typed(self):
        table = self.office()
        done = subprocess.run([self.top / "demo/try.sh", table], env=self.world, input="sum pay\nsum wage\n\nwhy sum pay\ncolumns\ncount\n",
                              capture_output=True, text=True, timeout=PATIENCE)
        self.assertEqual(done.returncode, 0, done.stderr)
        self.assertIn("there is no column 'wage'", done.stdout)
        self.assertIn("a try answers questions alone", done.stdout)
        self.assertTrue(done.stdout.endswith("sum pay\n    1100\ncount\n    4\n"), done.stdout)

    def test_what_cant_be_asked_is_said_before_anything_is_built(self):
        table = self.office()
        for words, due in (((table, "sum wage"), "sum wage: there is no column 'wage'"), ((table, "would sum pay"), "a try answers questions alone"),
                           ((self.top / "nothing",), "there is no folder"), ((self.top,), "has no schema.json")):
            done = self.run_it(self.top / "demo/try.sh", *words)
            self.assertEqual((done.returncode, done.stdout), (1, ""), done.stderr)
            self.assertIn(due, done.stderr)
            self.assertNotIn("building", done.stderr)

    def test_help_builds_nothing(self):
        (self.top / "front").symlink_to(FRONT)
        for script in ("demo/try.sh", "demo/run.sh", "front/demo.sh"):
            for word in ("-h", "--help"):
                done = self.run_it(self.top / script, word)
                self.assertEqual((done.returncode, done.stderr), (0, ""), script)
                self.assertTrue(done.stdout.startswith(f"usage: {script}"), done.stdout)
                self.assertLessEqual(len(done.stdout.splitlines()), 5)
            self.assertEqual(self.run_it(self.top / script, "--wrong").returncode, 2)

    def test_other_replies_than_those_due_are_noticed(self):
        (self.top / "demo/questions.jsonl").write_text((TOP / "demo/questions.jsonl").read_text().replace("age >= 41", "age >= 42"))
        done = self.run_it(self.top / "demo/try.sh")
        self.assertEqual(done.returncode, 1)
        self.assertIn("these aren't the replies that are due", done.stderr)

    def test_what_the_kit_says_is_shown_if_it_fails(self):
        done = self.run_it(self.top / "demo/try.sh", ENDS="4")
        self.assertEqual(done.returncode, 1)
        self.assertIn("run=ended proved=no", done.stderr)
        self.assertIn("ended with status 4", done.stderr)

    def start_slow(self):
        """A run whose kit never ends, and whose ten seconds are short."""
        (self.top / "bin/sleep").write_text("#!/bin/sh\nexec /bin/sleep 0.02\n")
        (self.top / "bin/sleep").chmod(0o755)
        return subprocess.Popen([self.top / "demo/try.sh"], env=self.world | {"HANGS": "try"}, stdout=subprocess.PIPE, stderr=subprocess.PIPE,
                                text=True, start_new_session=True)

    def has_pid(self):
        """Whether the kit that never ends has begun."""
        return (self.top / "tmp/pid").exists() and (self.top / "tmp/pid").read_text() != ""

    def test_it_says_once_that_it_takes_long_and_is_stopped_by_a_signal(self):
        for sends, number in ((os.kill, signal.SIGTERM), (os.killpg, signal.SIGINT)):
            run, said = self.start_slow(), ""
            while " 200 s" not in said or not self.has_pid():
                said += run.stderr.read(1)
            kit = int((self.top / "tmp/pid").read_text())
            (self.top / "tmp/pid").unlink()
            sends(run.pid, number)
            out, rest = run.communicate(timeout=PATIENCE)
            self.assertEqual((run.returncode, out), (130, ""))
            self.assertEqual(re.findall("it is still building, and this machine is busy: Ctrl-C is safe", said + rest), ["it is still building, and this machine is busy: Ctrl-C is safe"])
            self.assertEqual(rest.split("\n")[-2:], ["try: stopped; nothing is left behind", ""])
            self.assertEqual(os.listdir(self.top / "tmp"), [])
            with self.assertRaises(ProcessLookupError):
                os.kill(kit, 0)

    def test_without_the_kit(self):
        done = self.run_it(self.top / "demo/try.sh", PATH="/usr/bin:/bin")
        self.assertEqual((done.returncode, done.stdout), (1, ""))
        self.assertIn("the Rattle kit is missing", done.stderr)


class Build(Demo):
    LEFT = r"(?:about (?:\d+) min are|less than a minute is) left"

    def lines(self, done):
        """Of each crate that is proved its place, its name, and what came of it."""
        return re.findall(rf"(\d+) of \d+, {self.LEFT}: proving (\w+): (.*)", done.stderr)

    def test_it_says_what_it_is_at_and_how_long_is_left(self):
        done = self.run_it(*self.build)
        self.assertEqual(done.returncode, 0, done.stderr)
        names = [name for _, name, _ in self.lines(done)]
        self.assertEqual((names[0], names[-1], len(names)), ("audit_types", "auditor", len(set(names))))
        self.assertIn("about ", done.stderr.split("\n")[1])
        self.assertIn("less than a minute is left: proving auditor", done.stderr)
        shares = [line.split()[0] for line in (self.top / "crates/auditor/out/shares.txt").read_text().splitlines()]
        self.assertEqual(shares, names)
        self.assertEqual(os.listdir(self.top / "tmp"), [])

    def test_the_repositorys_shares_are_of_these_crates(self):
        names = [name for _, name, _ in self.lines(self.run_it(*self.build))]
        kept = [line.split()[0] for line in (TOP / "demo/shares.txt").read_text().splitlines() if not line.startswith("#")]
        self.assertEqual(kept, names)

    def stop_once_it_says(self, words):
        """Stops a run whose kit hangs at a crate, which then says how to go on and leaves nothing behind."""
        run = subprocess.Popen(self.build, env=self.world | {"HANGS": "table_load"}, stderr=subprocess.PIPE, text=True)
        said = ""
        while words not in said:
            said += run.stderr.read(1)
        run.send_signal(signal.SIGTERM)
        said += run.stderr.read()
        self.assertEqual(run.wait(PATIENCE), 130)
        self.assertIn("run it again to go on with table_load", said)
        self.assertEqual(os.listdir(self.top / "tmp"), [])

    def test_it_can_be_stopped_and_taken_up(self):
        self.stop_once_it_says("proving table_load: ")
        done = self.run_it(*self.build)
        self.assertEqual(done.returncode, 0, done.stderr)
        names = re.findall(r"(?m)^([a-z_]+)\b", (TOP / "demo/shares.txt").read_text())
        before = names.index("table_load")
        self.assertRegex(done.stderr.split("\n")[1], rf"^{before} of {len(names)} were proved before; {self.LEFT}$")
        self.assertEqual([name for _, name, _ in self.lines(done)], names[before:])
        self.assertFalse((self.top / "crates/auditor/out/shares.txt").exists(), "some crates were kept, so their seconds say nothing")

    def test_if_all_was_proved_before_one_line_says_so(self):
        self.run_it(*self.build)
        done = self.run_it(*self.build)
        number = len(re.findall(r"(?m)^[a-z_]+\b", (TOP / "demo/shares.txt").read_text()))
        self.assertEqual(done.stderr.split("\n")[1], f"{number} of {number} were proved before")
        self.assertEqual(self.lines(done), [])
        self.assertIn("the program is built", done.stderr)

    def test_what_is_built_is_looked_at_again_once_something_changes(self):
        source, program = self.top / "crates/int_rows/src/lib.rt", self.top / "crates/auditor/out/auditor"
        source.parent.mkdir()
        source.write_text("//! Rows.\n")
        self.assertEqual(self.run_it(*self.build, BUILDS="").returncode, 0)
        again = self.run_it(*self.build, FAILS="int_rows")
        self.assertEqual((again.returncode, again.stderr), (0, "the program is proved and built, and nothing has changed since\n"))
        for file in (source, program):
            before = file.read_text()
            file.write_text("another")
            self.assertEqual(self.run_it(*self.build, FAILS="int_rows").returncode, 1, file)
            file.write_text(before)
        program.unlink()
        self.assertEqual(self.run_it(*self.build, FAILS="int_rows").returncode, 1)
        self.assertEqual(os.listdir(self.top / "tmp"), [])

    def left_at(self, crate):
        """The minutes that are left by the line of a crate."""
        done = self.run_it(*self.build)
        return next(int(minutes) for minutes, name in re.findall(r"about (\d+) min are left: proving (\w+)", done.stderr) if name == crate)

    def test_what_is_left_goes_by_the_pace_of_the_last_five_crates(self):
        took = self.top / "crates/auditor/out/took.txt"
        took.parent.mkdir(exist_ok=True)
        shares = dict(re.findall(r"(?m)^([a-z_]+) (\d+)$", (TOP / "demo/shares.txt").read_text()))
        whole = sum(map(int, shares.values()))
        # On this machine each took twice its share once, and the last five three times; 60 seconds at the shares' own pace are reckoned besides.
        names = list(shares)
        took.write_text("".join(f"{name} {2 * int(shares[name])}\n" for name in names) + "".join(f"{name} {3 * int(shares[name])}\n" for name in names[-5:]))
        last = sum(int(shares[name]) for name in names[-5:])
        self.assertEqual(self.left_at(names[0]), int(whole * (3 * last + 60) / (last + 60) / 60 + 0.5))

    def test_it_ticks_while_a_crate_is_being_proved(self):
        (self.top / "bin/sleep").write_text("#!/bin/sh\nexec /bin/sleep 0.02\n")
        (self.top / "bin/sleep").chmod(0o755)
        self.stop_once_it_says("proving table_load: 10 s, 20 s, 30 s, ")

    def test_a_crate_that_is_not_proved_ends_it(self):
        done = self.run_it(*self.build, FAILS="sum_basis")
        self.assertEqual(done.returncode, 1)
        self.assertEqual(self.lines(done)[-1][1:], ("sum_basis", "failed"))
        self.assertIn("fn it: not proved", done.stderr)
        self.assertEqual(os.listdir(self.top / "tmp"), [])


if __name__ == "__main__":
    unittest.main()

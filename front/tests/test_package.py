"""The tarball and the Debian package: they start out of a fresh folder, the units find what they start, and every link resolves."""
import hashlib
import json
import os
import pathlib
import re
import shutil
import signal
import subprocess
import tempfile
import time
import unittest
import urllib.request

from kit import AUDITOR, FRONT, PATIENCE, free_port

DEMO = FRONT.parent / "demo"
WITHOUT_US = {"PATH": "/usr/bin:/bin"}
LINK = re.compile(r"\]\(([^)#\s]+)(?:#[^)\s]*)?\)")


def dead_links(page):
    return [target for target in LINK.findall(page.read_text()) if "://" not in target and not (page.parent / target).exists()]


def asked(address):
    """What the door says there, once it listens."""
    until = time.monotonic() + PATIENCE
    while True:
        try:
            with urllib.request.urlopen(address, timeout=PATIENCE) as reply:
                return reply.read()
        except OSError:
            if time.monotonic() > until:
                raise
            time.sleep(0.05)


class Packages(unittest.TestCase):
    @classmethod
    def setUpClass(cls):
        cls.folder = pathlib.Path(tempfile.mkdtemp(prefix="package-"))
        done = subprocess.run([DEMO / "package.sh", "--deb", "--program", AUDITOR, cls.folder], capture_output=True, text=True)
        if done.returncode:
            raise AssertionError(done.stderr)
        cls.tarball = next(cls.folder.glob("*.tar.gz"))
        cls.debian = next(cls.folder.glob("*.deb"))
        subprocess.run(["tar", "-xzf", cls.tarball, "-C", cls.folder], check=True)
        cls.tree = cls.folder / cls.tarball.name.removesuffix(".tar.gz")
        subprocess.run(["dpkg-deb", "-R", cls.debian, cls.folder / "deb"], check=True)

    @classmethod
    def tearDownClass(cls):
        shutil.rmtree(cls.folder)

    def test_the_sums_are_those_of_the_files(self):
        for path in (self.tarball, self.debian):
            named = (self.folder / (path.name + ".sha256")).read_text().split()
            self.assertEqual(named, [hashlib.sha256(path.read_bytes()).hexdigest(), path.name])

    def test_one_source_gives_one_tarball(self):
        with tempfile.TemporaryDirectory() as other:
            subprocess.run([DEMO / "package.sh", "--program", AUDITOR, other], check=True, capture_output=True)
            self.assertEqual((pathlib.Path(other) / self.tarball.name).read_bytes(), self.tarball.read_bytes())

    def test_every_link_of_its_pages_resolves(self):
        pages = [path for folder in (self.tree, self.folder / "deb") for path in folder.rglob("*.md")]
        self.assertTrue({"README.md", "PROMISES.md", "OPERATIONS.md", "FRONT.md"} <= {page.name for page in pages})
        self.assertEqual({str(page): dead for page in pages if (dead := dead_links(page))}, {})

    def test_the_units_start_what_is_unpacked(self):
        for prefix, root, units in (("/usr/local/", self.tree, self.tree / "share/auditor/front/units"),
                                    ("/usr/", self.folder / "deb/usr", self.folder / "deb/lib/systemd/system")):
            texts = [path.read_text() for path in units.glob("auditor-*.service")]
            started = {word for text in texts for word in re.findall(rf"{prefix}\S*", text) if word != "/usr/bin/python3"}
            self.assertTrue({prefix + "bin/auditor", prefix + "share/auditor/front/door.py"} <= started, started)
            for word in started:
                self.assertTrue((root / word.removeprefix(prefix)).is_file(), word)

    def test_the_door_and_its_clients_start_out_of_it(self):
        port = free_port()
        run = subprocess.Popen([self.tree / "share/auditor/front/demo.sh", self.tree / "bin/auditor", str(port)], env=WITHOUT_US,
                               stdout=subprocess.DEVNULL, stderr=subprocess.DEVNULL, start_new_session=True)
        try:
            self.assertEqual(json.loads(asked(f"http://127.0.0.1:{port}/office/health"))["state"], "serving")
            self.assertIn(b"<title>", asked(f"http://127.0.0.1:{port}/"))
            said = subprocess.run([self.tree / "bin/auditor-ask", "--table", "office", f"http://127.0.0.1:{port}", "count where all"], env=WITHOUT_US,
                                  capture_output=True, text=True, timeout=PATIENCE)
            self.assertEqual((said.stdout.strip(), said.returncode), ("240", 0))
        finally:
            run.send_signal(signal.SIGTERM)
            run.wait(PATIENCE)

    def test_its_own_program_is_the_one_that_the_demo_takes(self):
        said = subprocess.run([self.tree / "share/auditor/demo/run.sh"], env=WITHOUT_US, capture_output=True, timeout=PATIENCE)
        self.assertEqual(said.returncode, 0, said.stderr)
        self.assertEqual(said.stdout, (DEMO / "replies.jsonl").read_bytes())

    def test_nothing_is_put_beside_bin_and_share(self):
        self.assertEqual(sorted(path.name for path in self.tree.iterdir()), ["README.md", "bin", "share"])
        self.assertTrue(os.access(self.tree / "bin/auditor-prepare", os.X_OK))

    def test_a_wrong_argument_makes_nothing(self):
        with tempfile.TemporaryDirectory() as other:
            for words in (["--rpm"], ["--program"], ["--program", "/nothing"], [f"{other}/nothing"], [other, other]):
                done = subprocess.run([DEMO / "package.sh", *words], cwd=other, capture_output=True, text=True, env=WITHOUT_US)
                self.assertEqual(done.returncode, 1, words)
                self.assertIn("package: ", done.stderr)
            self.assertEqual(os.listdir(other), [])

    @unittest.skipIf(shutil.which("lintian") is None, "no lintian here")
    def test_lintian_finds_no_error(self):
        done = subprocess.run(["lintian", "--fail-on", "error", "--allow-root", self.debian], capture_output=True, text=True)
        self.assertEqual((done.returncode, [line for line in done.stdout.split("\n") if line.startswith("E:")]), (0, []), done.stdout)


if __name__ == "__main__":
    unittest.main()

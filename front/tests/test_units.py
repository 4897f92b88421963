"""The units of systemd: what they start is what the program and the door take, and each table has its own."""
import pathlib
import re
import shutil
import subprocess
import sys
import tempfile
import unittest

from kit import FRONT

sys.path.insert(0, str(FRONT))
from doorway import settings  # noqa: E402

UNITS = FRONT / "units"


def command(unit):
    """The words that a unit starts."""
    text = unit.read_text().replace("\\\n", " ")
    return re.search(r"(?m)^ExecStart=(.*)$", text)[1].split()


class Units(unittest.TestCase):
    def setUp(self):
        self.folder = pathlib.Path(tempfile.mkdtemp(prefix="units-"))

    def tearDown(self):
        shutil.rmtree(self.folder)

    def write(self, *arguments):
        return subprocess.run(["sh", UNITS / "for_table.sh", *arguments], capture_output=True, text=True)

    def test_the_door_takes_its_units_arguments(self):
        words = command(UNITS / "auditor-door.service")
        self.assertEqual(words[0], "/usr/bin/python3")
        read = settings.read(words[2:])
        place = read.places[""]
        for name in ("serve", "audit", "explain"):
            self.assertEqual(getattr(place, name), f"/run/auditor/{name}.sock")
            self.assertIn(f"ListenStream=/run/auditor/{name}.sock\n", (UNITS / f"auditor-{name}.socket").read_text())
        self.assertEqual(command(UNITS / "auditor-serve@.service")[1:], ["serve", "--batch", str(read.batch)])
        self.assertEqual(command(UNITS / "auditor-audit@.service")[1:], ["audit"])
        script = command(UNITS / "auditor-explain@.service")
        self.assertEqual((script[0], script[2:]), ("/bin/sh", [".", "/usr/local/bin/auditor"]))
        self.assertTrue((FRONT / pathlib.Path(script[1]).name).exists())

    def test_each_table_has_units_of_its_own(self):
        self.assertEqual(self.write("north", self.folder).returncode, 0)
        self.assertEqual(sorted(path.name for path in self.folder.iterdir()), [
            "auditor-door.service", "auditor-north-audit.socket", "auditor-north-audit@.service", "auditor-north-explain.socket",
            "auditor-north-explain@.service", "auditor-north-serve.socket", "auditor-north-serve@.service"])
        place = settings.read(command(self.folder / "auditor-door.service")[2:]).places["north"]
        for name, path in (("serve", place.serve), ("audit", place.audit), ("explain", place.explain)):
            self.assertIn(f"ListenStream={path}\n", (self.folder / f"auditor-north-{name}.socket").read_text())
            self.assertIn("WorkingDirectory=/var/lib/auditor/north\n", (self.folder / f"auditor-north-{name}@.service").read_text())
        self.assertIn("StateDirectory=auditor-door auditor-door/north\n", (self.folder / "auditor-door.service").read_text())
        self.assertEqual((str(place.public), str(place.keep)), ("/var/lib/auditor-public/north", "/var/lib/auditor-door/north"))

    def test_wrong_names_and_folders_are_refused(self):
        for arguments in ((), ("north",), ("a/b", self.folder), ("", self.folder), ("-n", self.folder), ("a b", self.folder),
                          ("north", self.folder / "nothing")):
            self.assertEqual(self.write(*arguments).returncode, 2, arguments)
        self.assertEqual(list(self.folder.iterdir()), [])

    @unittest.skipIf(shutil.which("systemd-analyze") is None, "no systemd here")
    def test_systemd_says_that_little_is_exposed(self):
        """At most 1.0 of 10, by its own measure, for a table's own units too."""
        for path in UNITS.glob("auditor-*"):
            shutil.copy(path, self.folder)
        self.write("north", self.folder)
        services = sorted(self.folder.glob("*.service"))
        self.assertEqual(len(services), 7)
        for service in services:
            done = subprocess.run(["systemd-analyze", "security", "--offline=yes", "--no-pager", "--threshold=10", service],
                                  capture_output=True, text=True)
            self.assertEqual(done.returncode, 0, done.stdout[-3000:] + done.stderr)
            text = service.read_text()
            for limit in ("MemoryMax", "TasksMax"):
                self.assertRegex(text, rf"(?m)^{limit}=\d+[GM]?$", service.name)

    @unittest.skipIf(shutil.which("systemd-analyze") is None, "no systemd here")
    def test_systemd_takes_them(self):
        for path in UNITS.glob("auditor-*"):
            shutil.copy(path, self.folder)
        done = subprocess.run(["systemd-analyze", "verify", *sorted(self.folder.glob("*.s*"))], capture_output=True, text=True)
        faults = [line for line in done.stderr.split("\n") if line and "is not executable" not in line]
        self.assertEqual(faults, [])


if __name__ == "__main__":
    unittest.main()

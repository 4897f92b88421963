"""A whole systemd boots the units, in a container over this system's own programs, and the door answers behind them."""
import json
import os
import pathlib
import shutil
import subprocess
import tempfile
import unittest

from kit import AUDITOR, FRONT, HERE, PATIENCE, Folder

USERS = {"root": 0, "www-data": 33, "auditor": 64990, "auditor-door": 64991, "nobody": 65534}
WANTED = "auditor-serve.socket auditor-audit.socket auditor-explain.socket auditor-door.service tried.service"
TARGET = f"[Unit]\nRequires=sysinit.target\nAfter=sysinit.target\nWants={WANTED}\n"
TRIED = ("[Unit]\nAfter=auditor-door.service\n[Service]\nType=oneshot\n"
         "ExecStart=/usr/bin/python3 /usr/local/share/auditor/front/tests/booted.py\n")


@unittest.skipIf(shutil.which("systemd-nspawn") is None or os.getuid(), "no systemd in a container here: systemd-nspawn, run by root")
class Boot(unittest.TestCase):
    def setUp(self):
        self.path = pathlib.Path(tempfile.mkdtemp(prefix="boot-"))
        self.addCleanup(shutil.rmtree, self.path)
        self.table = Folder(60, path=self.path / "auditor")
        self.write_system()
        self.own(self.path / "auditor", "auditor", 0o700)
        shutil.move(self.path / "auditor" / "public", self.path / "auditor-public")

    def write_system(self):
        for name in ("units", "etc", "out", "local/bin", "local/share/auditor"):
            (self.path / name).mkdir(parents=True)
        shutil.copy(AUDITOR, self.path / "local" / "bin" / "auditor")
        shutil.copytree(FRONT, self.path / "local" / "share" / "auditor" / "front", ignore=shutil.ignore_patterns("__pycache__"))
        for unit in (FRONT / "units").glob("auditor-*"):
            shutil.copy(unit, self.path / "units")
        (self.path / "units" / "tried.target").write_text(TARGET)
        (self.path / "units" / "tried.service").write_text(TRIED)
        (self.path / "etc" / "passwd").write_text("".join(f"{name}:x:{number}:{number}::/:/bin/sh\n" for name, number in USERS.items()))
        (self.path / "etc" / "group").write_text("".join(f"{name}:x:{number}:\n" for name, number in USERS.items()))

    def own(self, folder, name, mode):
        for path in (folder, *folder.iterdir()):
            os.chown(path, USERS[name], USERS[name])
        folder.chmod(mode)

    def boot(self):
        binds = {"--bind-ro": {"local": "/usr/local", "units": "/etc/systemd/system", "etc/passwd": "/etc/passwd", "etc/group": "/etc/group",
                               "auditor-public": "/var/lib/auditor-public"},
                 "--bind": {"auditor": "/var/lib/auditor", "out": "/mnt/out"}}
        words = [f"{how}={self.path / here}:{there}" for how, pairs in binds.items() for here, there in pairs.items()]
        return subprocess.run(
            ["systemd-nspawn", "--quiet", "--directory=/", "--volatile=yes", "--boot", "--register=no", "--keep-unit", "--private-network",
             f"--machine=auditor-{os.getpid()}", "--console=read-only", *words, "--", "systemd.unit=tried.target", "systemd.firstboot=off"],
            stdin=subprocess.DEVNULL, capture_output=True, timeout=2 * PATIENCE)

    def test_the_units_boot_and_the_door_answers(self):
        done = self.boot()
        found = self.path / "out" / "found.json"
        self.assertTrue(found.exists(), done.stdout[-4000:].decode(errors="replace") + done.stderr[-2000:].decode(errors="replace"))
        found = json.loads(found.read_text())
        self.assertEqual(found["health"][0], 200, found["said"])
        self.assertEqual(json.loads(found["all"][1]), self.table.due("sum", 0, 59))
        self.assertEqual(found["one"], [200, '{"denied":"unsafe"}\n'])
        self.assertEqual(json.loads(found["why"][1])["verdict"], "unsafe")
        self.assertEqual(found["would"], [200, '{"verdict":"released"}\n'])
        self.assertEqual(json.loads(found["after a kill"][1]), self.table.due("sum", 3, 20))
        for unit, user in (("auditor-door.service", "auditor-door"), ("auditor-serve", "auditor")):
            self.assertEqual((found[unit]["ActiveState"], found[unit]["User"]), ("active", user), found["said"])
            self.assertLess(int(found[unit]["MemoryMax"]), 2**32)
            self.assertLess(int(found[unit]["TasksMax"]), 100)
        self.assertEqual(found["auditor-door.service"]["NRestarts"], "0")
        self.assertEqual(found["folder"], [])
        self.assertEqual(found["other user"], "PermissionError")


if __name__ == "__main__":
    unittest.main()

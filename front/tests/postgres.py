"""A PostgreSQL server of Debian's in a folder of its own, for a test: it listens on a socket in that folder, and ends with the test.

The server isn't run as root: if the test is, it runs as nobody.
"""

import os
import pathlib
import shutil
import subprocess
import tempfile

PROGRAMS = sorted(pathlib.Path("/usr/lib/postgresql").glob("*/bin/pg_ctl"))
PATIENCE = 120


class Server:
    """`start` makes the folder and the server, `psql` runs a script in a folder of files, `remove` ends both."""

    def start(self):
        self.folder = pathlib.Path(tempfile.mkdtemp(prefix="pg-", dir="/tmp"))
        self.bin = PROGRAMS[-1].parent
        if os.geteuid() == 0:
            shutil.chown(self.folder, "nobody")
        try:
            self.run("initdb", "-D", "data", "-U", "tester", "-A", "trust", "-E", "UTF8", "--locale=C.UTF-8", "--no-sync")
            self.run("pg_ctl", "-D", "data", "-w", "-l", "log", "-o", f"-c listen_addresses='' -c unix_socket_directories='{self.folder}' -c fsync=off", "start")
        except BaseException:
            shutil.rmtree(self.folder)
            raise

    def run(self, name, *words, **more):
        """One of PostgreSQL's programs, in the folder and as whoever owns it."""
        user = {"user": "nobody", "group": "nogroup", "extra_groups": []} if os.geteuid() == 0 else {}
        done = subprocess.run([self.bin / name, *words], cwd=self.folder, capture_output=True, text=True, timeout=PATIENCE,
                              env={"PATH": os.defpath, "HOME": str(self.folder), "LC_ALL": "C.UTF-8"}, **user, **more)
        if done.returncode:
            raise AssertionError(f"{name} ended with {done.returncode}: {done.stdout}{done.stderr}")
        return done.stdout

    def psql(self, script):
        """What a script prints, without titles; the first error ends it."""
        return self.run("psql", "-h", str(self.folder), "-U", "tester", "-d", "postgres", "-X", "-q", "-t", "-A", "-v", "ON_ERROR_STOP=1", input=script)

    def remove(self):
        try:
            self.run("pg_ctl", "-D", "data", "-w", "-m", "immediate", "stop")
        finally:
            shutil.rmtree(self.folder)

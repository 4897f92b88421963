"""A folder with the table of an office that doesn't exist, and a door that stands before it. AUDITOR is the program."""
import collections
import csv
import json
import pathlib
import random
import shutil
import subprocess
import sys
import tempfile
import time
import urllib.request

from kit import AUDITOR, DOOR, PATIENCE, free_port

COLUMNS = {"team": "text", "site": "text", "age": "number", "height": "number", "salary": "sum", "balance": "sum", "bonus": "max"}
PUBLIC = 4
NOTES = {"title": "Staff of <i>the</i> office", "columns": {
    "salary": {"title": "monthly <b>salary</b>", "decimals": 2, "unit": "EUR"}, "height": {"decimals": 2, "unit": "m"},
    "bonus": {"decimals": 2, "unit": "EUR"}}}
# Names as people write them: a quote, a comma, markup, a letter beyond ASCII, and what other programs take for a missing value.
TEAMS = {"Support": 64, "Sales, North": 52, "NA": 41, "Bob's workshop": 22, "<b>Legal</b> & Co": 9, "Zoë": 12}
Person = collections.namedtuple("Person", COLUMNS)


def people(seed=5):
    """200 rows; the balances are mostly negative, and salaries are in steps of 0.01."""
    draw = random.Random(seed)
    rows = [Person(team, draw.choice(["Leeds", "York", "Hull"]), draw.randrange(19, 66), draw.randrange(150, 200),
                   draw.randrange(200_000, 900_000), draw.randrange(-9_000, 2_000), draw.randrange(0, 40) * 5000)
            for team, size in TEAMS.items() for _ in range(size)]
    draw.shuffle(rows)
    return rows


def write_table(folder, columns, rows, public, notes=None):
    """The two folders of a table: the whole one with its journal, and `public` in it with the first columns."""
    (folder / "public").mkdir(parents=True)
    schema = json.dumps({"columns": [{"name": name, "is": kind} for name, kind in columns.items()]})
    for place, width in ((folder, len(columns)), (folder / "public", public)):
        (place / "schema.json").write_text(schema)
        with open(place / "table.csv", "w", newline="", encoding="utf-8") as file:
            csv.writer(file).writerows([list(columns)[:width], *(row[:width] for row in rows)])
    if notes is not None:
        (folder / "public" / "notes.json").write_text(json.dumps(notes))
    subprocess.run([AUDITOR, "init"], cwd=folder, check=True)


class Office:
    """The door over one table, or over tables by their names, in a folder that is removed at the end."""

    def __init__(self, tables, *arguments, unix=False):
        self.folder = pathlib.Path(tempfile.mkdtemp(prefix="office-"))
        try:
            for name, (columns, rows, public, notes) in tables.items():
                write_table(self.folder / "tables" / name, columns, rows, public, notes)
        except BaseException:
            shutil.rmtree(self.folder)
            raise
        names = [word for name in tables if name for word in ("--table", name)]
        folder = str(self.folder / "tables") + ("/{table}" if names else "")
        port = free_port()
        self.url = f"unix:{self.folder}/door.sock" if unix else f"http://127.0.0.1:{port}"
        self.errors = open(self.folder / "door.err", "wb")
        self.door = subprocess.Popen([sys.executable, str(DOOR), "--auditor", AUDITOR, "--folder", folder, "--public", folder + "/public",
                                      "--listen", self.url.removeprefix("http://"), *names, *arguments], stderr=self.errors)

    def ready(self, ask):
        """Waits until `ask` no longer fails because nobody listens."""
        deadline = time.monotonic() + PATIENCE
        while True:
            try:
                return ask()
            except OSError:
                if time.monotonic() > deadline or self.door.poll() is not None:
                    self.close()
                    raise
                time.sleep(0.05)

    def get(self, path):
        with urllib.request.urlopen(f"{self.url}/{path}", timeout=PATIENCE) as response:
            return response.read().decode()

    def public(self, name=""):
        return self.folder / "tables" / name / "public"

    def simulate(self, name=""):
        """Whether `auditor simulate` agrees with the transcript."""
        with open(self.public(name) / "transcript.jsonl", "rb") as lines:
            return subprocess.run([AUDITOR, "simulate"], cwd=self.public(name), stdin=lines, stdout=subprocess.DEVNULL).returncode == 0

    def close(self):
        if self.door.poll() is None:
            self.door.terminate()
        try:
            self.door.wait(20)
        except subprocess.TimeoutExpired:
            self.door.kill()
            self.door.wait()
        self.errors.close()
        shutil.rmtree(self.folder, ignore_errors=True)

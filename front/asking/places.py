"""Where questions go: the program in a folder, or a front door by its address.

Both have the schema's columns, protected totals and `only`, notes for people, the public rows, `ask`, `would`, `why` and `near`, and `parts`: itself, or
the tables that it is made of, by name. A place that can't be asked raises Away with a sentence.
"""

import dataclasses
import os
import pathlib
import subprocess

from planning.columns import Columns
from planning.nearness import near
from preparing.conditions import Wrong

from .doors import door
from .replies import Away, columns_of, line_of, notes_of, only_of, protected_of, reply_of, rows_of
from .words import ended_words

MOST_NEAR = 50                      # questions near one that are looked at


class Folder:
    """The program in a folder, started at the first question and ended by `close`. It holds the journal as long."""

    def __init__(self, path, program):
        self.path, self.program, self.child = pathlib.Path(path), program, None
        schema = self._text("schema.json")
        self.columns, self.protected, self.only = columns_of(schema), protected_of(schema), only_of(schema)
        self.notes = notes_of(self._text("public/notes.json", "notes.json", otherwise="{}"))

    def _text(self, *names, otherwise=None):
        for name in names:
            if (self.path / name).is_file():
                return (self.path / name).read_text(encoding="utf-8-sig")
        if otherwise is not None:
            return otherwise
        raise Away(f"{self.path} has no {names[0]}: give a folder that has the table, or the address of a front door")

    def rows(self):
        """The public columns of each row; the secret ones of the table are passed over."""
        return rows_of(self._text("public/table.csv", "table.csv"), self.columns, self.only)

    def ask(self, question):
        """The program's reply."""
        if self.child is None:
            self.child = subprocess.Popen(
                [self.program, "serve"],
                cwd=self.path,
                stdin=subprocess.PIPE,
                stdout=subprocess.PIPE,
                stderr=subprocess.PIPE,
            )
        try:
            self.child.stdin.write(line_of(question) + b"\n")
            self.child.stdin.flush()
            line = self.child.stdout.readline()
        except BrokenPipeError:
            line = b""
        if not line.endswith(b"\n"):
            raise Away(self._ended())
        return reply_of(line.decode(errors="replace"))

    def _ended(self):
        """Why the program ended, in its words and ours."""
        _, said = self.child.communicate()
        status, self.child = self.child.returncode, None
        return "auditor: " + ended_words(said.decode(errors="replace").strip(), status)

    def would(self, question):
        raise Away("only a front door says beforehand whether a question would be answered")

    def why(self, question):
        """The line of `explain`."""
        line, = self._explained(line_of(question) + b"\n")
        return line

    def near(self, question):
        """What a front door says of it, worked out by `explain`: the first question near this one that would be answered."""
        try:
            others = near(question.where, Columns(self._text("schema.json").encode(), self._text("public/table.csv", "table.csv").encode()))[:MOST_NEAR]
        except Wrong:
            others = []
        lines = [question, *(dataclasses.replace(question, where=other.where) for other in others)]
        verdicts = self._explained(b"".join(line_of(line) + b"\n" for line in lines))
        found = next((place for place, said in enumerate(verdicts) if said["verdict"] == "released"), 0)
        if not found:
            return {"verdict": verdicts[0]["verdict"], "near": None}
        other = others[found - 1]
        return {"verdict": verdicts[0]["verdict"], "near": lines[found].line(), "rows": other.rows.bit_count(), "more": other.more, "fewer": other.fewer}

    def _explained(self, lines):
        """What `explain` says of some lines. The journal is free for it: `serve` is started again at the next question."""
        self.close()
        done = subprocess.run([self.program, "explain"], cwd=self.path, input=lines, capture_output=True)
        if done.returncode != 0:
            raise Away("auditor explain: " + ended_words(done.stderr.decode(errors="replace").strip(), done.returncode))
        return [reply_of(line) for line in done.stdout.decode().splitlines()]

    def parts(self):
        """The tables that it is made of, by name: itself."""
        return [("", self)]

    def close(self):
        if self.child is not None:
            self.child.communicate()
            self.child = None


def place(address, program, headers=None, table=""):
    """The place that an address or the path of a folder names. `headers` say to a door who asks, `table` is one of several behind it."""
    if address.startswith(("http://", "https://", "unix:")):
        return door(address, headers, table)
    if table:
        raise Away("--table is one of several tables behind a front door")
    if not os.path.isdir(address):
        raise Away(
            f"there is no folder {address}: give one that has the table, or the address of a front door, as"
            " http://127.0.0.1:8087"
        )
    if program is None:
        raise Away("there is no auditor in the path, nor does AUDITOR name one")
    return Folder(address, program)

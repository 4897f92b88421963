#!/usr/bin/env python3
"""What try.sh does with a folder that front/prepare.py made: the questions as ask.py takes them become lines of the program, and its replies words.

    trial.py begin FOLDER WORK [QUESTION ..]    writes questions.jsonl and answers.journal into WORK; without questions they are read, a line each
    trial.py end FOLDER WORK                    prints each question, and below it what the replies of WORK/replies.jsonl say

The journal is a copy of the folder's, or one in which nothing is answered yet. FOLDER stays as it is. The status is 0, or 1 if a question wasn't
answered, or can't be asked here.
"""
import contextlib
import csv
import io
import json
import pathlib
import sys

sys.path.insert(0, str(pathlib.Path(__file__).resolve().parent.parent / "front"))

import ask  # noqa: E402
from asking.places import Folder  # noqa: E402
from asking.questions import Unclear, parse  # noqa: E402
from asking.replies import Away, line_of, reply_of  # noqa: E402

KIND_BYTES = {"sum": 1, "max": 2, "min": 3}         # of the journal's header (docs/FORMATS.md)
MOST_SECRET = 8
NOT_HERE = "a try answers questions alone, so it can't be asked for would, why or near: ask.py with the built program can"


class Trial(Folder):
    """A folder whose questions are answered all at once: at first each is a line and has no reply, then the replies stand in the order of the lines."""

    def __init__(self, path, replies=None):
        super().__init__(path, None)
        self.lines, self.replies = [], replies

    def ask(self, question):
        self.lines.append(line_of(question))
        if self.replies is None:
            return {"count": 0}
        if not self.replies:
            raise Away("the program gave fewer replies than it was asked for")
        return reply_of(self.replies.pop(0))

    def journal(self):
        """The folder's journal, or an empty one for its table, by the page on formats."""
        if (self.path / "answers.journal").is_file():
            return (self.path / "answers.journal").read_bytes()
        with open(self.path / "table.csv", newline="", encoding="utf-8-sig") as file:
            rows = sum(bool(record) for record in csv.reader(file)) - 1
        kinds = bytes(KIND_BYTES[kind] for kind in self.columns.values() if kind in KIND_BYTES)
        return b"\1SQAJRNL\1" + rows.to_bytes(2, "big") + bytes([len(kinds)]) + kinds.ljust(MOST_SECRET, b"\0") + b"\0"


def need_asked(trial, text):
    """Unclear if a line isn't a question, or isn't one for a try."""
    if text in ("columns", "help", "?"):
        return
    question = parse(text, trial.columns)
    if question.would or question.why or question.near:
        raise Unclear(NOT_HERE)


def typed(trial):
    """The questions that are typed until the input's end; what can't be asked is said at once."""
    if sys.stdin.isatty():
        print("questions as ask.py takes them, a line each (help and columns say more); Ctrl-D ends them, and then all are answered", file=sys.stderr)
    while True:
        try:
            text = input("> " if sys.stdin.isatty() else "").strip()
        except EOFError:
            return
        try:
            if not text:
                continue
            need_asked(trial, text)
            if text in ("columns", "help", "?"):
                ask.answer(trial, text)
            else:
                yield text
        except Unclear as why:
            ask.say(why)


def begin(path, work, texts):
    """Writes what the program reads."""
    trial = Trial(path)
    for text in texts:
        try:
            need_asked(trial, text)
        except Unclear as why:
            raise Away(f"{text}: {why}") from None
    texts = texts or list(typed(trial))
    with contextlib.redirect_stdout(io.StringIO()):
        for text in texts:
            ask.answer(trial, text)
    if not texts:
        raise Away("nothing was asked")
    (work / "questions.jsonl").write_bytes(b"".join(line + b"\n" for line in trial.lines))
    (work / "questions.json").write_text(json.dumps(texts))
    (work / "answers.journal").write_bytes(trial.journal())
    there = (trial.path / "answers.journal").is_file()
    print("the answers of its journal count, and the journal stays as it is" if there else "as if nothing had been asked before", file=sys.stderr)
    return True


def end(path, work):
    """Prints the questions and what was replied, and whether all were answered."""
    trial = Trial(path, (work / "replies.jsonl").read_text(encoding="utf-8").splitlines())
    answered = True
    for text in json.loads((work / "questions.json").read_text()):
        print(text)
        with contextlib.redirect_stdout(io.StringIO()) as said:
            answered = ask.answer(trial, text) and answered
        # Why it is denied can't be asked here.
        print("".join(f"    {line.partition(' To see why, ask: ')[0]}\n" for line in said.getvalue().splitlines()), end="")
    return answered


def main(words):
    try:
        match words:
            case ["begin", path, work, *texts]:
                return 0 if begin(path, pathlib.Path(work), texts) else 1
            case ["end", path, work]:
                return 0 if end(path, pathlib.Path(work)) else 1
    except (Away, OSError, ValueError) as why:
        ask.say(f"try: {why}", sys.stderr)
        return 1
    except KeyboardInterrupt:
        return 130
    print(__doc__.strip(), file=sys.stderr)
    return 2


if __name__ == "__main__":
    for stream in (sys.stdout, sys.stderr):
        stream.reconfigure(errors="backslashreplace")
    sys.exit(main(sys.argv[1:]))

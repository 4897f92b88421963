"""The periods of a table that is renewed. Over other public columns the same words mean other rows, so each period has a transcript of its
own, and nothing is answered from that of another one.

A period begins only if the owner says so, by a file `renewed` in the door's own folder, which the door removes once the period has begun.
What belongs to period N is in the folder `period.N`, each file under its own name: schema.json, table.csv and notes.json, the copy of the
journal that the period began with, and once it has ended transcript.jsonl and report.jsonl. What a stop leaves in between is done at
the next start.
"""
import contextlib
import json
import re
from dataclasses import dataclass
from pathlib import Path

from .compacted import left_out
from .faults import Turned
from .files import sync_folder, write_whole
from .first import NAME as FIRST
from .growth import carry_over
from .transcript import Damaged, Transcript, check_table, is_of, mark_of, read_public

TOLD = "renewed"
JOURNAL = "answers.journal"
SHOWN = ("schema.json", "table.csv", "notes.json")
TRANSCRIPT, REPORT = "transcript.jsonl", "report.jsonl"
ENDED = "ended.json"


@dataclass(frozen=True)
class Period:
    """A period by its number, from 1 on, with its folder, and how many answers were given before it."""

    number: int
    folder: Path
    public: Path
    earlier: int

    @property
    def simulating(self):
        """The folder in which `simulate` decides as the program does, or None if it hasn't the answers of before there. It is the period's own:
        a journal beside the public files may be the copy for the period to come."""
        return self.folder if self.number == 1 or (self.folder / JOURNAL).is_file() else None

    def need_simulating(self):
        """That folder. Without it nobody can say what would be answered."""
        if self.simulating is None:
            raise Turned("renewed")
        return self.simulating


def open_period(public, keep, say):
    """The period that the public files are of, begun if the owner says so. Files that don't go together are Damaged."""
    begin_if_told(public, keep, say)
    number = newest(keep)
    if number == 1:
        carry_over(public, keep, say)
    check_table(public, keep)
    hold(public, folder_of(keep, number))
    return Period(number, folder_of(keep, number), public, answers_before(keep, number))


def folder_of(keep, number):
    return keep / f"period.{number}"


def newest(keep):
    """The number of the period that was begun last."""
    return max((int(path.name[7:]) for path in keep.glob("period.*") if re.fullmatch(r"period\.[1-9][0-9]{0,8}", path.name)), default=1)


def hold(public, folder):
    """Keeps the public files in the period's folder: once they are renewed they are nowhere else."""
    folder.mkdir(exist_ok=True)
    for name in SHOWN:
        if (public / name).is_file():
            text = (public / name).read_bytes()
            if not (folder / name).is_file() or (folder / name).read_bytes() != text:
                write_whole(folder / name, text)
    sync_folder(folder.parent)


def answers_before(keep, number):
    """How many answers the periods before one of this number had."""
    return sum(json.loads((folder_of(keep, before) / ENDED).read_bytes())["answers"] for before in range(1, number))


def begin_if_told(public, keep, say):
    """Ends the period that was, and begins the next one over the public files as they are now, if there is a file that says so."""
    told, mark = keep / TOLD, keep / "table.sha256"
    if not told.exists():
        return
    now, plan = mark_of(*read_public(public)), plan_of(told)
    if mark.exists() and is_of(mark, *read_public(public)):
        if plan.get("to") != now.decode().strip():
            raise Damaged(f"{told} is there, and schema.json and the public table.csv are those that transcript.jsonl was made over: put the "
                          "new ones in place, or remove it")
    elif mark.exists():
        number = plan.get("period", newest(keep) + 1)
        need_whole_copy(public, keep, number)
        write_whole(told, json.dumps({"period": number, "to": now.decode().strip()}).encode())
        end(keep, number - 1, say)
        begin(public, keep, number, say)
        write_whole(mark, now)
        say(f"renewed: period {number} begins with a transcript of its own, and {folder_of(keep, number - 1)} is what was before")
    told.unlink()
    sync_folder(keep)


def plan_of(told):
    """What a door that was stopped meant to do: the number of the period, and the mark of its public files. The owner's file has nothing."""
    try:
        plan = json.loads(told.read_bytes())
        return plan if isinstance(plan["period"], int) and isinstance(plan["to"], str) else {}
    except (ValueError, LookupError, TypeError):
        return {}


def end(keep, number, say):
    """Puts the transcript and the report into the folder of their period. What was with the program is asked no more: the same words
    mean other rows now."""
    folder = folder_of(keep, number)
    folder.mkdir(exist_ok=True)
    if not (folder / TRANSCRIPT).exists():
        with contextlib.closing(Transcript(keep)) as old:
            write_whole(folder / ENDED, json.dumps({"answers": old.records}).encode() + b"\n")
            if old.left:
                say(f"renewed: {len(old.left)} questions were with the program when it ended, and aren't asked again: nobody was told a reply")
            old.forget()
            (keep / TRANSCRIPT).rename(folder / TRANSCRIPT)
            sync_folder(folder)
    if (keep / REPORT).exists():
        (keep / REPORT).replace(folder / REPORT)
    (keep / FIRST).unlink(missing_ok=True)
    sync_folder(keep)
    if not (folder / "table.csv").exists():
        say(f"renewed: the public files of before aren't in {folder}: put them there for those who check its transcript")


def begin(public, keep, number, say):
    """The folder of a period, with the public files and the copy of the journal."""
    folder = folder_of(keep, number)
    hold(public, folder)
    if (public / JOURNAL).is_file():
        write_whole(folder / JOURNAL, (public / JOURNAL).read_bytes())
    else:
        say(f"renewed: there is no {public / JOURNAL}, so nobody can say what would be answered, or check the decisions of this period")


def need_whole_copy(public, keep, number):
    """A copy of the journal has to have the answers that were given: one of an earlier time would show other decisions than are due."""
    path, ended = public / JOURNAL, folder_of(keep, number - 1) / TRANSCRIPT
    if not path.is_file():
        return
    if ended.exists():
        given = answers_before(keep, number)
    else:
        with contextlib.closing(Transcript(keep)) as old:
            given = answers_before(keep, number - 1) + old.records
    counted, given = records_in(path.read_bytes()), given - left_out(keep)
    if counted is None or counted < given:
        what = "isn't a journal" if counted is None else f"has {counted} answers, and {given} were given"
        raise Damaged(f"{path} {what}: copy the journal there as it is now, once no run is open")


def records_in(text):
    """How many records a journal has, by the page on formats, or None if it isn't a journal."""
    if len(text) < 21 or text[:9] != b"\x01SQAJRNL\x01":
        return None
    rows, at, records = int.from_bytes(text[9:11], "big"), 20, 0
    while at + 3 < len(text) and text[at] == 1:
        count = text[at + 1]
        if count == 0:                      # a growth: the rows from here on
            rows, at = int.from_bytes(text[at + 2:at + 4], "big"), at + 4
        else:
            at, records = at + 2 + count * (9 + (rows + 7) // 8), records + count
    return records if at < len(text) and text[at] != 1 else None

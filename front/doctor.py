#!/usr/bin/python3
"""Looks whether a folder is as the program and the front door want it, and says what isn't. It changes nothing, and asks nothing.

    doctor.py FOLDER [--public FOLDER] [--sockets FOLDER] [--auditor PROGRAM]

A line for each thing looked at: ok, look (it may be meant so) or WRONG. The exit status is 0 if nothing is wrong, 1 if something is, 2 if the
arguments are. Run it as the owner of the files or as root: the program itself reads them, over a link to the table and a copy of the journal.
"""
import argparse
import csv
import grp
import json
import os
import pathlib
import pwd
import shlex
import shutil
import stat
import subprocess
import sys
import tempfile
import time

from preparing.largest import MOST_ROWS

HERE = pathlib.Path(__file__).resolve().parent
JOURNAL, SPARE, KEYS = "answers.journal", "answers.spare", "keys.csv"
DOOR, TRANSCRIPT = "auditor-door", "transcript.jsonl"
RECORDS = 65_536                    # that a journal takes
NETWORK = {"nfs", "nfs4", "cifs", "smb3", "9p", "fuse.sshfs"}
PASSING = {"tmpfs", "ramfs"}


def ok(text):
    return "ok", text


def look(text):
    return "look", text


def wrong(text):
    return "WRONG", text


def said_by(command, folder):
    """What a command came to over a folder, with nothing to read: its status, and what it said."""
    done = subprocess.run(command, cwd=folder, stdin=subprocess.DEVNULL, capture_output=True, text=True, errors="replace")
    return done.returncode, done.stderr.strip() or f"status {done.returncode}"


def of_files(folder, program):
    """Whether the program takes schema, table and, if there is one, the journal."""
    missing = [name for name in ("schema.json", "table.csv") if not (folder / name).is_file()]
    if missing:
        yield wrong(f"{' and '.join(missing)}: not in {folder}. front/prepare.py makes both of a CSV file")
        return
    if program is None:
        yield wrong("no program: auditor isn't in the path, nor named by --auditor or AUDITOR, so nothing can be asked. In the source demo/run.sh builds it;"
                    " then PATH=$PATH:.../crates/auditor/out")
        if not (folder / JOURNAL).exists():
            yield wrong(no_journal(folder))
        return
    if (folder / JOURNAL).exists():
        status, said = said_by(["sh", HERE / "explain.sh", folder, program], folder)
        yield wrong(f"auditor explain: {said}") if status else ok("schema, table and journal are read by the program, and belong together")
        return
    with tempfile.TemporaryDirectory() as copy:
        for name in ("schema.json", "table.csv"):
            os.symlink((folder / name).resolve(), f"{copy}/{name}")
        status, said = said_by([program, "init"], copy)
    yield wrong(f"auditor init: {said}") if status else ok("schema and table are read by the program")
    yield wrong(no_journal(folder))


def no_journal(folder):
    return f"{JOURNAL}: there is none, so nothing can be asked. If there never was one: (cd {shlex.quote(str(folder))} && auditor init). If there was, put it back"


def of_journal(path):
    """Whether a journal, or the second one, is a file that the program goes on with."""
    if not os.path.lexists(path):
        return
    if path.name == JOURNAL and path.is_symlink():
        yield wrong(f"{path.name}: a link, which is never followed to the journal")
        return
    if not path.is_file():
        yield wrong(f"{path.name}: not a file. Is its disk mounted?")
        return
    if not path.stat().st_mode & stat.S_IWUSR:
        yield wrong(f"{path.name}: may not be written, as after a sync that failed. Look at the disk before you give leave again")
    else:
        yield ok(f"{path.name}: a file that its owner may write")


def of_modes(folder):
    """Whether what is for the operator alone can be read by nobody else, and is one user's."""
    names = [name for name in ("schema.json", "table.csv", KEYS, JOURNAL, SPARE) if (folder / name).is_file()]
    owners = {(folder / name).stat().st_uid for name in names} | {folder.stat().st_uid}
    if len(owners) > 1:
        yield wrong("the folder and its files are of several users: " + ", ".join(sorted(user_name(owner) for owner in owners)))
    shut = not folder.stat().st_mode & 0o077
    open_files = [name for name in names if name != "schema.json" and (folder / name).stat().st_mode & 0o077]
    if open_files and not shut:
        yield wrong(f"others than the owner may read {' and '.join(open_files)}: chmod 600, and chmod 700 for the folder")
    elif names:
        yield ok(f"the owner alone reads the files: {user_name(folder.stat().st_uid)}")


def user_name(number):
    try:
        return pwd.getpwuid(number).pw_name
    except KeyError:
        return str(number)


def rows_of(path):
    with open(path, newline="", encoding="utf-8-sig") as file:
        return list(csv.reader(file))


def of_public(folder, public, program):
    """Whether the folder for everybody has the public columns of the table, and nothing else of it."""
    if not public.is_dir():
        yield look(f"{public}: isn't there, and the front door wants it")
        return
    try:
        schema = json.loads((folder / "schema.json").read_text(encoding="utf-8"))
        names = [column["name"] for column in schema["columns"] if column["is"] in ("text", "number", "count")]
        whole, shown = rows_of(folder / "table.csv"), rows_of(public / "table.csv")
        places = [whole[0].index(name) for name in names]
        due = [[row[place] for place in places] for row in whole]
        if (public / "schema.json").read_bytes() != (folder / "schema.json").read_bytes():
            yield wrong(f"{public}/schema.json: another one than the table's")
    except (OSError, ValueError, LookupError, TypeError) as fault:
        yield wrong(f"{public}: can't be compared with the table: {fault}")
        return
    if (public / KEYS).exists():
        yield wrong(f"{public}/{KEYS}: for all to read, and it has whose row each is: remove it there")
    if [name for name in shown[0] if name not in names]:
        yield wrong(f"{public}/table.csv: has a secret column, for all to read: {', '.join(set(shown[0]) - set(names))}")
    elif due != shown:
        yield wrong(f"{public}/table.csv: not the public columns of the table as it is now")
    elif program and (end := said_by([program, "simulate"], public))[0]:
        yield wrong(f"{public}: auditor simulate: {end[1]}")
    else:
        yield ok(f"{public}: the public columns of the table, and nothing else")


def of_users(folder, public, sockets):
    """Whether the door, behind sockets, is another user than the program's, and who may connect."""
    if not sockets.is_dir():
        if is_door_there(public):
            yield look(f"{sockets}: no sockets, so the door starts the program itself, and could read the table")
        else:
            yield ok("no door is set up: nothing to do")
        return
    try:
        door = pwd.getpwnam(DOOR)
        group = grp.getgrnam(DOOR).gr_gid
    except KeyError:
        yield wrong(f"there is no user and group {DOOR}: adduser --system --group --no-create-home {DOOR}")
        return
    if door.pw_uid == folder.stat().st_uid:
        yield wrong(f"the folder is {DOOR}'s, who could read the table")
    for name in ("serve", "audit", "explain"):
        path = sockets / f"{name}.sock"
        if not path.is_socket():
            yield wrong(f"{path}: no socket. systemctl enable --now auditor-{name}.socket")
        elif path.stat().st_mode & 0o007 or path.stat().st_gid != group:
            yield wrong(f"{path}: others than the group {DOOR} may connect, or it can't: {DOOR} and mode 0660 are due")
        else:
            yield ok(f"{path}: {DOOR} may connect, and nobody else")


def is_door_there(public):
    """Whether a door has its user, or has kept a transcript where it keeps one by default."""
    try:
        pwd.getpwnam(DOOR)
    except KeyError:
        return (public / TRANSCRIPT).exists()
    return True


def of_clock(folder):
    """Whether the clock is after what was written."""
    late = [path.name for path in folder.iterdir() if path.lstat().st_mtime > time.time() + 2]
    if late:
        yield wrong(f"the clock is {time.strftime('%Y-%m-%d %H:%M')}, before the last change of {', '.join(sorted(late))}")
    else:
        yield ok(f"the clock is {time.strftime('%Y-%m-%d %H:%M')}, after all that was written")


def of_disk(folder):
    """Whether the disk keeps what is written, and has room for a full history."""
    kind = kind_of_disk(folder)
    if kind in PASSING:
        yield wrong(f"{folder} is on {kind}, which is gone with the power")
    elif kind in NETWORK:
        yield look(f"{folder} is on {kind}: the lock has to hold for all machines, and a sync to reach the disk")
    room = os.statvfs(folder).f_bavail * os.statvfs(folder).f_frsize
    need = most_bytes(folder) - (os.path.getsize(folder / JOURNAL) if (folder / JOURNAL).is_file() else 0)
    if room < need:
        yield wrong(f"the disk has {room:,} bytes left, and a full history takes {need:,} more")
    else:
        yield ok(f"the disk has room for a full history: {need:,} bytes more")
    if (folder / SPARE).is_file() and (folder / SPARE).stat().st_dev == folder.stat().st_dev:
        yield look(f"{SPARE} is on the journal's disk: both are lost with it")


def kind_of_disk(folder):
    found = subprocess.run(["findmnt", "-n", "-o", "FSTYPE", "-T", folder], capture_output=True, text=True) if shutil.which("findmnt") else None
    return found.stdout.strip() if found else ""


def most_bytes(folder):
    """A full journal: a group for each record, each with its set of rows, and a growth for each row."""
    try:
        rows = len(rows_of(folder / "table.csv")) - 1
    except (OSError, ValueError):
        rows = MOST_ROWS
    return 21 + RECORDS * (11 + (rows + 7) // 8) + 4 * rows


def looked_at(folder, public, sockets, program):
    yield from of_files(folder, program)
    yield from of_journal(folder / JOURNAL)
    yield from of_journal(folder / SPARE)
    yield from of_modes(folder)
    yield from of_public(folder, public, program)
    yield from of_users(folder, public, sockets)
    yield from of_clock(folder)
    yield from of_disk(folder)


def read_arguments(words):
    parser = argparse.ArgumentParser(prog="doctor.py", description=__doc__.split("\n", 1)[0])
    parser.add_argument("folder", type=pathlib.Path, help="the program's folder, with schema.json, table.csv and answers.journal")
    parser.add_argument("--public", type=pathlib.Path, help="the folder of the public columns; FOLDER/public by default, or /var/lib/auditor-public")
    parser.add_argument("--sockets", type=pathlib.Path, default=pathlib.Path("/run/auditor"), help="/run/auditor by default")
    parser.add_argument("--auditor", default=os.environ.get("AUDITOR", "auditor"), help="the program")
    found = parser.parse_args(words)
    if not found.folder.is_dir():
        parser.error(f"there is no folder {found.folder}")
    found.folder = found.folder.resolve()
    if found.public is None:
        installed = found.folder == pathlib.Path("/var/lib/auditor")
        found.public = pathlib.Path("/var/lib/auditor-public") if installed else found.folder / "public"
    program = shutil.which(found.auditor)
    found.program = program and os.path.abspath(program)
    return found


def main(words):
    found = read_arguments(words)
    states = []
    try:
        for state, text in looked_at(found.folder, found.public, found.sockets, found.program):
            print(f"{state:<6} {text}")
            states.append(state)
    except BrokenPipeError:
        raise
    except OSError as fault:
        print(f"WRONG  {fault.filename or found.folder}: {fault.strerror}")
        states.append("WRONG")
    print(f"{states.count('WRONG')} wrong, {states.count('look')} to look at, {states.count('ok')} as they should be")
    return 1 if "WRONG" in states else 0


if __name__ == "__main__":
    try:
        end = main(sys.argv[1:])
        sys.stdout.flush()
    except BrokenPipeError:             # whoever reads has read enough, as head does
        os.dup2(os.open(os.devnull, os.O_WRONLY), sys.stdout.fileno())
        end = 1
    sys.exit(end)

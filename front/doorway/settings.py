"""The door's arguments, and the folders that each table has by them."""
import argparse
import os
import pathlib
import re
from dataclasses import dataclass

RUN = 2**30 - 2**20                 # bytes of input after which a run is ended, before the program ends it
NAME = re.compile(r"[A-Za-z0-9_][A-Za-z0-9_.-]{0,63}")
LISTEN = re.compile(r"unix:.+|[^:]+:\d{1,5}|\[[0-9A-Fa-f:.]+\]:\d{1,5}")
TAKEN = {"ask", "would", "why", "near", "hint", "health", "metrics", "total", "openapi.json", "schema.json", "notes.json", "table.csv", "report.jsonl",
         "transcript.jsonl", "tables.json", "words.json"}
PLACE = "{table}"


@dataclass(frozen=True)
class Places:
    """Where one table's files and sockets are. `folder` is the program's, and not read by the door."""
    folder: pathlib.Path
    public: pathlib.Path
    keep: pathlib.Path
    serve: str | None
    audit: str | None
    explain: str | None


def parser():
    words = argparse.ArgumentParser(
        prog="door.py", description="A front door for `auditor serve`. Not proved, and not trusted with a secret.",
        epilog="With several tables the folders and sockets have {table} in them, which stands for each table's name.")
    add = words.add_argument
    add("--folder", help="the folder of schema.json, table.csv and answers.journal; . by default")
    add("--public", help="the folder with schema.json and the public columns as table.csv; FOLDER/public by default")
    add("--keep", help="the folder for transcript.jsonl, waiting.jsonl and report.jsonl; PUBLIC by default")
    add("--auditor", default="auditor", help="the program")
    add("--serve", metavar="SOCKET", help="where another user runs `auditor serve --batch N`")
    add("--audit", metavar="SOCKET", help="where another user runs `auditor audit`")
    add("--explain", metavar="SOCKET", help="where another user runs `auditor explain`; without it nobody is told why")
    add("--batch", type=int, default=64, help="lines that the program answers together, 1 to 64; 64 by default")
    add("--twin", action="store_true", help="the program keeps two journals: `auditor serve --twin`. With --serve the unit says so")
    add("--listen", default="127.0.0.1:8087", help="unix:PATH, or an address of this machine and a port")
    add("--host", action="append", default=[], help="a name under which a proxy hands requests on; may be repeated")
    add("--report-every", type=float, default=0, metavar="SECONDS", help="the rest after which a report is made; 0 for none")
    add("--least", type=int, default=0, metavar="N", help="the least number of rows that a question may be over, or leave out")
    add("--tokens", metavar="FILE", help="the file of tokens.py: nobody else may ask")
    add("--log", metavar="FILE", help="where it is written who asked what; nowhere by default")
    add("--proxy", action="append", default=[], metavar="ADDRESS", help="an address at which a proxy says whose requests it hands on; repeated")
    add("--first", metavar="FILE", help="questions that are asked once before the door listens, as plan.py prints them")
    add("--table", action="append", default=[], metavar="NAME", help="a table by name; repeated for several")
    add("--connections", type=int, default=0, metavar="N", help="the most connections; by default as many as the system has descriptors for")
    add("--run-limit", type=int, default=RUN, help=argparse.SUPPRESS)
    add("--group-patience", type=float, help=argparse.SUPPRESS)
    add("--asker-patience", type=float, help=argparse.SUPPRESS)
    add("--explain-patience", type=float, help=argparse.SUPPRESS)
    add("--waiting", type=int, help=argparse.SUPPRESS)
    add("--head-patience", type=float, help=argparse.SUPPRESS)
    add("--denials-up-to", type=int, metavar="BYTES", help=argparse.SUPPRESS)
    return words


def read(arguments=None):
    """The settings, with `places` for each name of a table. The one without a name is at the root."""
    words = parser()
    settings = words.parse_args(arguments)
    if not 1 <= settings.batch <= 64:
        words.error("--batch is 1 to 64")
    if settings.twin and settings.serve:
        words.error("--twin is for a program that the door starts: with --serve it is the unit that starts `auditor serve --twin`")
    if settings.least < 0 or settings.report_every < 0 or settings.connections < 0:
        words.error("--least, --report-every and --connections are at least 0")
    if settings.report_every and settings.serve and not settings.audit:
        words.error("a report through sockets wants --audit")
    if (settings.audit or settings.explain) and not settings.serve:
        words.error("--audit and --explain want --serve")
    if not LISTEN.fullmatch(settings.listen):
        words.error("--listen is unix:PATH, or ADDRESS:PORT")
    fault = _fault_of_names(settings)
    if fault:
        words.error(fault)
    if "/" in settings.auditor:             # it is started in other folders
        settings.auditor = os.path.abspath(settings.auditor)
    settings.places = {name: _places(settings, name) for name in settings.table or [""]}
    settings.first = {name: pathlib.Path(settings.first.replace(PLACE, name)) for name in settings.places} if settings.first else {}
    return settings


def _fault_of_names(settings):
    names, fixed = settings.table, [text for text in (settings.folder, settings.public, settings.keep, settings.serve,
                                                      settings.audit, settings.explain, settings.first) if text and PLACE not in text]
    if len(set(names)) < len(names):
        return "a table is named twice"
    for name in names:
        if not NAME.fullmatch(name) or name in TAKEN:
            return f"{name!r} can't name a table: letters, digits, _ . and -, and none of {', '.join(sorted(TAKEN))}"
    if names and fixed:
        return f"with --table, folders and sockets have {PLACE} in them: {fixed[0]} has not"
    return None


def _places(settings, name):
    folder = settings.folder or (PLACE if name else ".")
    public = settings.public or folder + "/public"
    texts = [folder, public, settings.keep or public, settings.serve, settings.audit, settings.explain]
    folder, public, keep, *sockets = [text and text.replace(PLACE, name) for text in texts]
    return Places(pathlib.Path(folder), pathlib.Path(public), pathlib.Path(keep), *sockets)

#!/usr/bin/python3
"""Makes the files that auditor reads of a CSV file as people have it, or of an Excel workbook.

    prepare.py look FILE [encoding=NAME] [separator=NAME] [untitled=first] [sheet=NAME]
        says what the file has in it, and writes FILE.choices.json with a ? for each choice that is yours
    prepare.py look --more
        says what each choice means, and what it costs
    prepare.py choose CHOICES [NAME=KIND | NAME.KEY=VALUE | KEY=VALUE | others=KIND | missing=WHAT | range=RANGE ..]
        fills in choices, as salary=sum salary.range="0 to none"; without any it asks for each that is open
    prepare.py lines FILE CHOICES [NAME.bands=10 | NAME.join="A+B as AB" | NAME="leave out" ..]
        says how many combinations of public cells there are, how many people are alone in theirs, and what coarser choices give
    prepare.py make FILE CHOICES FOLDER
        writes FOLDER with schema.json and table.csv, and FOLDER/public with the public columns alone, says each change,
        and points out what people may conclude who know more than that secrets are whole numbers
    prepare.py make FILE CHOICES FOLDER key=TITLE
        the same for a table that lives: keys.csv has the key of each row, from the column TITLE, which stays outside of the table, and
        the public number current is 1 in the rows of those who are there
    prepare.py renew EXPORT CHOICES OLD NEW key=TITLE [many=left] [many=changed] [unit=same] [numbers=later]
        writes the folder NEW, with the table of the folder OLD as it is by EXPORT: who is there in her row, who left no longer current,
        another number in another row; numbers=later keeps the earlier numbers this time, the others say that what looks wrong is meant
    prepare.py add FILE CHOICES OLD NEW
        writes the folder NEW, with the tables of the folder OLD and the rows of FILE at their end, as auditor grow wants them
    prepare.py choose CHOICES count=NAME
        rows that stand for all people with the same public cells, and a column NAME with how many these are. make and add condense
        then, in little memory however many people the file has
    prepare.py sql CHOICES postgresql|duckdb|sqlite|spark [table=NAME]
        prints the query by which an engine makes such rows of a table of people
    prepare.py take TABLE CHOICES FOLDER
        writes FOLDER, as make does, of a CSV file of rows that an engine made so
    prepare.py check FILE CHOICES TABLE
        compares a CSV file of such rows, in any order, with the people, and says where they differ

Nothing is guessed silently, nothing secret is rounded, nothing is overwritten, and what isn't made whole isn't there. The
program itself, auditor in the path or the one that AUDITOR names, reads both folders before they are put into place.
"""

import os
import re
import shutil
import sys

from preparing.adding import add
from preparing.choosing import choose
from preparing.comparing import check
from preparing.faults import Fault, shown, status_of
from preparing.lines import add_lines, make_lines, stands_for_people
from preparing.looking import look, say_more
from preparing.making import make
from preparing.queries import say_sql
from preparing.renewing import renew
from preparing.taking import take
from preparing.trying import say_tries

OPTIONS = ("encoding", "separator", "untitled", "sheet")
COMMANDS = ("look", "choose", "lines", "make", "renew", "add", "sql", "take", "check")
HELP = ("-h", "--help")


def options_of(words):
    """The arguments KEY=VALUE after the file, by key."""
    found = {}
    for word in words:
        key, mark, value = word.partition("=")
        if not mark or key not in OPTIONS:
            raise Fault(f"{shown(word)} isn't an option of look: there are {', '.join(key + '=' for key in OPTIONS)}")
        found[key] = value
    return found


def program():
    """The path of auditor, if there is one. A wrong AUDITOR is a Fault, and not passed over."""
    named = os.environ.get("AUDITOR")
    found = shutil.which(named or "auditor")
    if named and not found:
        raise Fault(f"AUDITOR names {shown(named)}, which isn't a program")
    return os.path.abspath(found) if found else None


def usage_of(command):
    """What the text above says of one command."""
    return "".join(re.findall(rf"(?m)^    prepare\.py {command} .*\n(?: {{8}}.*\n)*", __doc__)).rstrip()


def need_arguments(words):
    """Says what the arguments lack, last, and gives the status."""
    known = words[:1] and words[0] in COMMANDS
    print(usage_of(words[0]) if known else __doc__.strip(), file=sys.stderr)
    lacks = f"{words[0]} takes the arguments above" if known else f"there is no command {shown(words[0])}." if words else "a command is missing."
    print(f"prepare: {lacks}" + ("" if known else f" There are {', '.join(COMMANDS)}"), file=sys.stderr)
    return 2


def run(words):
    """Does what the arguments say."""
    match words:
        case [command, *_, last] if command in COMMANDS and last in HELP:
            print(usage_of(command))
        case ["look", "--more"]:
            say_more()
        case ["look", path, *options] if not path.startswith("--"):
            look(path, **options_of(options))
        case ["choose", path, *choices]:
            choose(path, choices)
        case ["lines", path, choices, *tried]:
            say_tries(path, choices, tried)
        case ["make", path, choices, folder]:
            (make_lines if stands_for_people(choices) else make)(path, choices, folder, program())
        case ["make", path, choices, folder, key] if key.startswith("key="):
            (make_lines if stands_for_people(choices) else make)(path, choices, folder, program(), key.removeprefix("key="))
        case ["renew", path, choices, old, new, key, *meant] if key.startswith("key="):
            renew(path, choices, old, new, key.removeprefix("key="), meant, program())
        case ["add", path, choices, old, new]:
            (add_lines if stands_for_people(choices) else add)(path, choices, old, new, program())
        case ["sql", choices, dialect]:
            say_sql(choices, dialect)
        case ["sql", choices, dialect, table] if table.startswith("table="):
            say_sql(choices, dialect, table.removeprefix("table="))
        case ["take", lines, choices, folder]:
            take(lines, choices, folder, program())
        case ["check", path, choices, lines]:
            check(path, choices, lines)
        case ["-h" | "--help" | "help"]:
            print(__doc__.strip())
        case _:
            return need_arguments(words)
    return 0


def main(words):
    """Does what the arguments say; what can't be done ends with a sentence and status 1."""
    return status_of("prepare", lambda: run(words), 1)


if __name__ == "__main__":
    for stream in (sys.stdout, sys.stderr):
        stream.reconfigure(errors="backslashreplace")
    sys.exit(main(sys.argv[1:]))

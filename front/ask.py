#!/usr/bin/python3
"""Asks auditor in a terminal, a question a line, and says in words what it replies.

    ask.py FOLDER [QUESTION ..]             over the program in the folder that has the table
    ask.py http://HOST:PORT [QUESTION ..]   over a front door; unix:PATH for its socket

    ask.py --login NAME ADDRESS ..          asks for NAME's password at the proxy, or token at the door, in the terminal
    ask.py --table NAME ADDRESS ..          one of several tables behind a door; without it all are asked as parts of one
    AUDITOR_TOKEN=.. ask.py ADDRESS ..      sends a token

    count where age >= 41                   how many rows
    sum salary where team = 'Design'        a total, exactly; avg for an average, max or min for the greatest or the least
    totals salary by team                   a total for each team, a question each; avg salary by team, count by team
    totals salary by team, site             a table with all totals over it; what isn't answered is ////
    csv totals salary by team, site         the same as CSV
    would sum salary where age >= 41        whether it would be answered; nothing is asked (over a front door)
    why sum salary where age = 41           why it is denied, by the answers given so far; nothing is asked
    near sum salary where age = 41          what is near a denied question and would be answered; nothing is asked
    columns                                 what there is to ask about
    help                                    this

Without questions they are read from the terminal until its end. The status is 0 if every question was answered, 1 if one
wasn't, and 2 if the arguments aren't these. What is said of a denial follows from the program's reply alone.
"""

import getpass
import json
import os
import shutil
import sys

from clients.auditor import login_of

from asking.places import place
from asking.questions import Question, Unclear, parse
from asking.replies import SECRET, Away
from asking.tables import HATCHED, ask_cells, cells_to_ask, csv_text, table_lines, value_words
from asking.words import WORDS, answer_of, denial_words, is_protected, near_words, reply_words, step, verdict_words, why_words
from preparing.conditions import Wrong

OPTIONS = ("--login", "--table")
MOST_GROUPS = 100
MOST_CELLS = 1000


def answer(there, text):
    """Prints the reply to a line, and says whether it was answered."""
    if text in ("help", "?"):
        print(__doc__.split("\n\n", 3)[3].rsplit("\n\n", 1)[0])
        return True
    if text == "columns":
        say_columns(there)
        return True
    try:
        question = parse(text, there.columns)
        return answer_groups(there, question) if question.by else answer_one(there, question)
    except (Unclear, Away) as why:
        say(why)
        return False


def answer_one(there, question):
    """Asks one question, or what would be said of it, why it is denied, or what is near. What isn't asked is said of each part."""
    if question.why:
        say_why(there, question)
        return True
    if question.near or question.would:
        for name, part in there.parts():
            say(named(name, near_words(part.near(question)) if question.near else verdict_words(part.would(question))))
        return True
    reply = there.ask(question)
    say(reply_words(question, reply, there.columns, there.notes, there.protected))
    return answer_of(reply) is not None


def named(name, words):
    """What is said of a part, after its name."""
    return f"{name}: {words}" if name else words


def say_why(there, question):
    """Prints why each part that denies a question does so, or what the first one says: a sentence, and the line of `explain` itself."""
    found = [(name, part, part.why(question)) for name, part in there.parts()]
    for name, part, line in [one for one in found if one[2].get("verdict") in ("unsafe", "wide")] or found[:1]:
        say_why_of(name, part, question, line)


def say_why_of(name, there, question, line):
    try:
        if line["verdict"] == "refused":
            say(refusal_words(there, question))
            return
        words = why_words(line, target_words(there, line), there.notes.get(question.column, {}))
    except (LookupError, TypeError, ValueError):
        raise Away("what comes back isn't a line of auditor explain") from None
    say(named(name, words))
    say("  " + json.dumps(line, ensure_ascii=False, separators=(",", ":")))


def refusal_words(there, question):
    """The sentence that asking gives: a count over the same rows is refused for the same condition, and makes no record."""
    reply = there.ask(Question("count", where=question.where))
    if reply.get("count") == 0:
        reply = {"refused": "empty"}
    return reply_words(question, reply, there.columns, there.notes) if "refused" in reply else WORDS["why"]["refused"]


def target_words(there, line):
    """What an answer would give away, in words. Protected totals of no row have no place; a count makes no record."""
    if "group" not in line:
        return f"the number of row {line.get('row')}"
    totals = [where for _, where in there.protected if answer_of(there.ask(Question("count", where=where)))]
    return f"the protected total where {totals[line['group']]}"


def answer_groups(there, question):
    """Asks a question for each value of a public column, or each cell by two, the largest first, and prints what came back."""
    rows = there.rows()
    for name in question.by:
        need_few(name, len({row[name] for row in rows}), MOST_GROUPS)
    publics = {name: kind for name, kind in there.columns.items() if kind not in SECRET}
    try:
        cells = cells_to_ask(question, rows, publics)
    except Wrong:
        say(reply_words(question, there.ask(Question("count", where=question.where)), there.columns, there.notes))
        return False
    need_few(" and ".join(question.by), len(cells), MOST_CELLS)
    cells = ask_cells(cells, there.would if question.would else there.ask)
    print_cells(there, question, cells)
    return all("verdict" in cell.reply or answer_of(cell.reply) is not None for cell in cells)


def need_few(name, number, most):
    if number > most:
        raise Unclear(f"{name} has {number:,} values, and at most {most:,} questions are asked at once")


def print_cells(there, question, cells):
    """Prints the cells as CSV, as a table, or as a line each."""
    if question.csv:
        print(csv_text(question.by, cells, question.ask, there.notes.get(question.column, {})), end="")
    elif len(question.by) == 1:
        for cell in cells:
            say(f"{value_words(cell.values[0], there.notes.get(question.by[0], {}))}: {group_words(there, cell)}")
        say_denials(there, cells, "")
    else:
        for line in table_lines(question.by, cells, there.notes, lambda cell: short_words(there, cell)):
            say(line)
        say_denials(there, cells, f"{HATCHED}: ")


def say_denials(there, cells, mark):
    """What each kind of denial means, once, with a question to which it was said."""
    first = {}
    for cell in cells:
        if "denied" in cell.reply and not is_protected(cell.question, there.protected):
            first.setdefault(cell.reply["denied"], cell.question)
    for reason, question in first.items():
        say(mark + "not answered: " + denial_words(reason, question))


def cell_words(there, cell):
    """The reply to a cell's question in a line."""
    if "verdict" in cell.reply:
        return verdict_words(cell.reply)
    return reply_words(cell.question, cell.reply, there.columns, there.notes, there.protected)


def group_words(there, cell):
    """The same in the line of a group: what a denial means is said once, below all groups."""
    if "denied" in cell.reply and not is_protected(cell.question, there.protected):
        return "not answered"
    return cell_words(there, cell)


def short_words(there, cell):
    """The same in a cell of a table."""
    if "verdict" in cell.reply:
        return cell.reply["verdict"]
    return HATCHED if "denied" in cell.reply else cell_words(there, cell)


def say_columns(there):
    """A line for each column: its name, what it is, its title and unit; one for each total that is protected; and over which rows all is."""
    for name, kind in there.columns.items():
        note = there.notes.get(name, {})
        title = note.get("title", name)
        words = [
            (
                f"secret, to be asked for {'sum and avg' if kind == 'sum' else kind}"
                if kind in SECRET
                else f"public {kind}"
            )
        ]
        words += [f"called {title!r}"] * (title != name) + [f"in steps of {step(note)}"] * bool(note.get("decimals"))
        say(f"  {name:32} " + ", ".join(words + ([f"unit {note['unit']}"] if note.get("unit") else [])))
    for column, where in there.protected:
        say(f"  protected, so never answered: the total of {column} where {where}")
    for where in there.only:
        say(f"  every question is over the rows where {where}")


def say(text, file=None):
    """Prints lines without what would steer a terminal: other people wrote some of it."""
    for line in str(text).split("\n"):
        print("".join(letter if letter.isprintable() else ascii(letter)[1:-1] for letter in line), file=file)


def answer_lines(there):
    """Answers what is typed, until the terminal's end."""
    try:
        import readline  # noqa: F401, the arrow keys
    except ImportError:
        pass
    answered = True
    while True:
        try:
            text = input("> " if sys.stdin.isatty() else "").strip()
        except EOFError:
            return answered
        if text in ("quit", "exit"):
            return answered
        if text:
            answered = answer(there, text) and answered


def who_asks(name):
    """The header that says who asks, if anything does. No word of the command line has a secret: others see those."""
    if name is None:
        return login_of(os.environ.get("AUDITOR_TOKEN"), None)
    return login_of(None, (name, getpass.getpass(f"password of {name}: ")))


def options_of(words):
    """The options before the place, by name, and the words after them."""
    found = {}
    while len(words) > 1 and words[0] in OPTIONS:
        found[words[0]], words = words[1], words[2:]
    return found, words


def main(words):
    """Asks what the arguments or the terminal say."""
    if words in (["-h"], ["--help"]):
        print(__doc__.strip())
        return 0
    options, words = options_of(words)
    if not words or words[0].startswith("-"):
        print(__doc__.strip(), file=sys.stderr)
        what = f"{words[0]} isn't an option here" if words else "a folder that has the table, or the address of a front door, is missing"
        say(f"ask: {what}", sys.stderr)
        return 2
    found = shutil.which(os.environ.get("AUDITOR", "auditor"))
    there = None
    try:
        there = place(words[0], os.path.abspath(found) if found else None, who_asks(options.get("--login")), options.get("--table", ""))
        answered = all([answer(there, text) for text in words[1:]]) if words[1:] else answer_lines(there)
        return 0 if answered else 1
    except (Away, OSError, ValueError) as why:
        say(f"ask: {why}", sys.stderr)
    except KeyboardInterrupt:
        print(file=sys.stderr)
    finally:
        if there is not None:
            there.close()
    return 1


if __name__ == "__main__":
    for stream in (sys.stdout, sys.stderr):
        stream.reconfigure(errors="backslashreplace")
    sys.exit(main(sys.argv[1:]))

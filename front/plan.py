#!/usr/bin/python3
"""Plans a report before anybody asks: which of the wanted questions would be answered, and in which order.

    plan.py PROGRAM PUBLIC WANTED

PROGRAM is auditor, in the path or by a path, PUBLIC a folder with schema.json and the public columns as table.csv, WANTED a file or - for standard input. Each of
its lines is a question as the program takes it, as ask.py takes it, or a table: by team, site of sum salary with margins. A question of
JSON may have a "weight".

On standard output are the questions that would be answered, in an order in which they are, a line each: ask exactly these, in this order,
and first; door.py --first does. What is left out is said on standard error. No secret is read, and nothing is asked: it is auditor
simulate that decides, and what it decides on sums doesn't depend on answers. What it decides on maxima and minima does, so they stand last.

The status is 0, or 1 if a line wasn't a question, if it was interrupted, or if there is no plan; 2 if the arguments are wrong.
"""
import argparse
import pathlib
import shutil
import signal
import sys

from planning.columns import read_columns
from planning.making import make, percent, report_lines
from planning.simulating import Simulate
from planning.wanted import Reader
from preparing.faults import Fault, counted, listed, os_words, shown


def read(arguments):
    words = argparse.ArgumentParser(prog="plan.py", usage="plan.py PROGRAM PUBLIC WANTED [OPTION ..]", description=__doc__.split("\n\n")[0],
                                    epilog=__doc__.split("\n\n", 2)[2], formatter_class=argparse.RawDescriptionHelpFormatter)
    add = words.add_argument
    add("program", metavar="PROGRAM", help="auditor, in the path or by a path")
    add("public", metavar="PUBLIC", help="the folder with schema.json and the public columns as table.csv")
    add("wanted", metavar="WANTED", help="the file of what is wanted; - for standard input")
    add("--weights", choices=("rows", "equal"), default="rows",
        help="what a question counts that has no weight of its own: its rows, which is the default, or 1")
    add("--merge", action="store_true", help="put a question over more rows in the place of each that is left out")
    add("--least", type=int, default=0, metavar="N", help="the least number of rows that a question may be over, or leave out")
    add("--seconds", type=float, default=12, metavar="S", help="how long to look for a better order; 12 by default")
    add("--orders", type=int, default=10**9, metavar="N", help="how many other orders to try at most; as many as the time allows by default")
    add("--transcript", metavar="FILE", help="the questions and replies that there are, as a front door keeps them: the plan goes on from them")
    add("--report", metavar="FILE", help="says of each wanted question what becomes of it, a line of JSON each")
    settings = words.parse_args(arguments)
    if settings.least < 0 or settings.seconds < 0:
        words.error("--least and --seconds are at least 0")
    return settings


def say(text):
    print(f"plan: {text}", file=sys.stderr, flush=True)


def program_of(named):
    """The path of the program, or a Fault."""
    found = shutil.which(named)
    if found is None:
        raise Fault(f"there is no program {shown(named)}, in the path or by that path: in the source demo/run.sh builds it, at crates/auditor/out/auditor")
    return found


def run(settings):
    """Prints the plan, and returns whether all went well."""
    transcript = pathlib.Path(settings.transcript).read_bytes() if settings.transcript else b""
    simulate = Simulate(program_of(settings.program), settings.public, transcript)
    simulate.need_files()
    if settings.report:
        open(settings.report, "a").close()      # what can't be written is said before the work
    columns = read_columns(settings.public)
    wanted = Reader(columns, settings.weights == "equal")
    wanted.read(sys.stdin.read() if settings.wanted == "-" else pathlib.Path(settings.wanted).read_text(encoding="utf-8-sig"))
    if not wanted.questions and not wanted.faults:
        raise Fault(f"{settings.wanted} has no question")
    plan = make(simulate, wanted.questions, columns, settings, say)
    for question in plan.questions:
        sys.stdout.buffer.write(question.line + b"\n")
    sys.stdout.flush()
    if settings.report:
        pathlib.Path(settings.report).write_text("".join(line + "\n" for line in report_lines(plan)), encoding="utf-8")
    say_plan(plan, settings)
    if wanted.faults:
        say(f"{counted(len(wanted.faults), 'line')} can't be planned:\n{listed(wanted.faults)}")
    return plan.whole and not wanted.faults


def say_plan(plan, settings):
    """What is answered, what is left out, and what stands in its place."""
    if not plan.whole:
        say("stopped: this is the best so far")
    say(f"{len(plan.kept) + len(plan.counts):,} of {len(plan.kept) + len(plan.left) + len(plan.counts):,} questions are answered, "
        f"{percent(plan.share)} of the weight; {counted(plan.tries, 'other order')} tried")
    if plan.left:
        say(f"left out:\n{listed([left_words(plan, question, settings.least) for question in plan.left])}")
    if settings.merge and plan.left:
        say(f"{len(plan.instead):,} of {len(plan.left):,} have another in their place: {counted(len(plan.added), 'question')} more")
    if plan.extremes:
        say(f"{counted(len(plan.extremes), 'question')} on maxima or minima stand last: whether one is answered depends on the answers before it")


def left_words(plan, question, least):
    found = plan.instead.get(question)
    words = f"line {question.number:,}: {question.ask} {question.column} where {question.where} ({counted(question.size, 'row')})"
    few = f"; it is over fewer than {least:,} rows, or leaves fewer out" if question in plan.few else ""
    return words + few + (f"; in its place: {found.near.where} ({found.near.more:,} more)" if found else "")


def stop(*_):
    raise KeyboardInterrupt


def main(arguments):
    """Does what the arguments say; what can't be done ends with a sentence and status 1."""
    settings = read(arguments)
    signal.signal(signal.SIGTERM, stop)
    try:
        return 0 if run(settings) else 1
    except (Fault, UnicodeDecodeError) as fault:
        say(fault)
    except OSError as fault:
        say(os_words(fault))
    except KeyboardInterrupt:
        say("stopped before there was anything to print")
    return 1


if __name__ == "__main__":
    for stream in (sys.stdout, sys.stderr):
        stream.reconfigure(errors="backslashreplace")
    sys.exit(main(sys.argv[1:]))

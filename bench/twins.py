#!/usr/bin/env python3
"""What a second journal costs. bench/twins.sh makes slow_sync.so and calls this.

    twins.py PROGRAM SLOW_SYNC

Works in the folder that it is called in. Instructions are counted by valgrind, less those of opening the journals: they are what the
program does for a group, and nothing that a disk does. With slow syncs a second is mostly syncs: two of each journal for a group."""
import os
import re
import subprocess
import sys
import time

from pace import write_questions, write_table

ROWS, QUESTIONS = 200, 640
MOST_INSTRUCTIONS, LEAST_SPEED = 1.1, 20
COUNTER = ["valgrind", "--tool=cachegrind", "--cache-sim=no", "--cachegrind-out-file=/dev/null", "--log-file=counted"]


def run(words, given, **more):
    """The output of a run over this input."""
    with open(given, "rb") as asked:
        ended = subprocess.run(words, stdin=asked, capture_output=True, **more)
    if ended.returncode != 0:
        sys.exit(f"twins: {words[-1]} ended with status {ended.returncode}: {ended.stderr.decode()}")
    return ended.stdout


def begin(program, twin):
    """A journal without records, and a spare if there is to be one."""
    for name in ("answers.journal", "answers.spare"):
        if os.path.exists(name):
            os.remove(name)
    run([program, "init"], "none.jsonl")
    if twin:
        run([program, "restore"], "none.jsonl")


def words(program, batch, twin):
    return [program, "serve", "--batch", str(batch), *(["--twin"] if twin else [])]


def instructions(program, batch, twin, given):
    begin(program, twin)
    said = run([*COUNTER, *words(program, batch, twin)], given, env={"PATH": "/usr/bin:/bin"})
    with open("counted") as counted:
        return said, int(re.search(r"I\s+refs:\s+([\d,]+)", counted.read())[1].replace(",", ""))


def of_groups(program, batch, twin):
    """The instructions that the questions take, without those of opening, and the replies."""
    _, opening = instructions(program, batch, twin, "none.jsonl")
    said, whole = instructions(program, batch, twin, "questions.jsonl")
    return said, whole - opening


def speed(program, library, batch, twin):
    """Questions a second with slow syncs, and the replies."""
    begin(program, twin)
    since = time.monotonic()
    said = run(words(program, batch, twin), "questions.jsonl", env={**os.environ, "LD_PRELOAD": os.path.abspath(library)})
    return said, QUESTIONS / (time.monotonic() - since)


def main():
    program, library = sys.argv[1:]
    write_table(ROWS, 0)
    write_questions("intervals", "sum", ROWS, QUESTIONS)
    replies, is_wrong, speeds = set(), False, {}
    for batch in (1, 64):
        (one, alone), (two, both) = of_groups(program, batch, False), of_groups(program, batch, True)
        replies |= {one, two}
        is_wrong |= both > alone * MOST_INSTRUCTIONS
        print(f"batch {batch}: {alone} instructions with one journal, {both} with two: {both / alone:.3f} times as many")
    for twin in (False, True):
        for batch in (1, 64):
            said, speeds[twin, batch] = speed(program, library, batch, twin)
            replies.add(said)
        ratio = speeds[twin, 64] / speeds[twin, 1]
        is_wrong |= ratio < LEAST_SPEED
        print(f"{'two journals' if twin else 'one journal'}, syncs of 2.5 ms: {speeds[twin, 1]:.0f} questions a second with batch 1, "
              f"{speeds[twin, 64]:.0f} with batch 64: {ratio:.0f} times as many")
    if len(replies) != 1:
        print("the replies differ")
    sys.exit(is_wrong or len(replies) != 1)


if __name__ == "__main__":
    main()

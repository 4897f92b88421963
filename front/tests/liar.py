#!/usr/bin/python3
"""A program that lies: `serve` of the real one, with the replies of each group of three questions or more altered.

LIE says how. Once it has lied there is a file `lied` in its folder. All other commands are the real program's, which AUDITOR names. A
group is 64 lines.
"""
import os
import pathlib
import subprocess
import sys

GROUP = 64


def doubled(replies, questions):
    return replies[:1] + replies


def lost(replies, questions):
    return replies[1:]


def last_lost(replies, questions):
    return replies[:-1]


def exchanged_with_the_last(replies, questions):
    return replies[-1:] + replies[1:-1] + replies[:1]


def exchanged_kinds(replies, questions):
    """Exchanges two replies of other kinds, a count and one that isn't."""
    counts = [place for place, line in enumerate(questions) if b'"ask": "count"' in line]
    others = [place for place, line in enumerate(questions) if b'"column"' in line]
    if counts and others:
        one, other = counts[0], others[0]
        replies[one], replies[other] = replies[other], replies[one]
    return replies


def invented(replies, questions):
    return [b'{"sum":}\n'] + replies[1:]


def endless(replies, questions):
    return [b"7" * 100_000]


def silent(replies, questions):
    return []


def main():
    program = os.environ["AUDITOR"]
    if sys.argv[1] != "serve":
        os.execv(program, [program, *sys.argv[1:]])
    lie = globals()[os.environ["LIE"]]
    real = subprocess.Popen([program, *sys.argv[1:]], stdin=subprocess.PIPE, stdout=subprocess.PIPE)
    while True:
        questions = [line for line in (sys.stdin.buffer.readline() for _ in range(GROUP)) if line]
        if not questions:
            break
        real.stdin.write(b"".join(questions))
        real.stdin.flush()
        if len(questions) < GROUP:
            break
        replies = [real.stdout.readline() for _ in range(GROUP)]
        # The last line is a filler too.
        several = sum(line != b"x\n" for line in questions) > 3
        said = lie(list(replies), questions) if several else replies
        if said != replies:
            pathlib.Path("lied").touch()
        sys.stdout.buffer.write(b"".join(said))
        sys.stdout.buffer.flush()
    real.stdin.close()
    sys.exit(real.wait())


if __name__ == "__main__":
    main()

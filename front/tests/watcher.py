#!/usr/bin/python3
"""The program, with a look at waiting.jsonl before each group: a question that isn't written there leaves a file `unwritten`.

KEEP names the door's folder. All other commands are the real program's, which AUDITOR names. A group is 64 lines.
"""
import os
import pathlib
import subprocess
import sys

GROUP = 64


def main():
    program, keep = os.environ["AUDITOR"], pathlib.Path(os.environ["KEEP"])
    if sys.argv[1] != "serve":
        os.execv(program, [program, *sys.argv[1:]])
    real = subprocess.Popen([program, *sys.argv[1:]], stdin=subprocess.PIPE, stdout=subprocess.PIPE)
    while True:
        questions = [line for line in (sys.stdin.buffer.readline() for _ in range(GROUP)) if line]
        written = (keep / "waiting.jsonl").read_bytes().split(b"\n")
        if any(b'"column"' in line and line[:-1] not in written for line in questions):
            (keep / "unwritten").touch()
        real.stdin.write(b"".join(questions))
        real.stdin.flush()
        if len(questions) < GROUP:
            break
        sys.stdout.buffer.write(b"".join(real.stdout.readline() for _ in range(GROUP)))
        sys.stdout.buffer.flush()
    real.stdin.close()
    sys.exit(real.wait())


if __name__ == "__main__":
    main()

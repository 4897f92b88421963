#!/usr/bin/python3
"""The program with an `audit` that begins a report and goes on as long as anybody reads it. All other commands are the real program's."""
import fcntl
import os
import select
import sys

program = os.environ["AUDITOR"]
if sys.argv[1] == "audit":
    journal = open("answers.journal", "rb")
    fcntl.flock(journal, fcntl.LOCK_EX | fcntl.LOCK_NB)
    print('{"column":"salary","row":0,', end="", flush=True)
    unread = select.poll()
    unread.register(sys.stdout, 0)
    unread.poll()
    sys.exit()
os.execv(program, [program, *sys.argv[1:]])

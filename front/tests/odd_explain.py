#!/usr/bin/python3
"""The program with an `explain` that does what EXPLAIN says: `wait` until the file GO is there, or nobody reads what it says, `end` at
once, or send `texts`. All other commands are the real program's, and so is `explain` once it has waited."""
import os
import select
import sys

program, how = os.environ["AUDITOR"], os.environ.get("EXPLAIN")
if sys.argv[1] == "explain" and how == "wait":
    unread = select.poll()
    unread.register(sys.stdout, 0)
    while not os.path.exists(os.environ["GO"]):
        if unread.poll(20):
            sys.exit()
if sys.argv[1] != "explain" or how == "wait":
    os.execv(program, [program, *sys.argv[1:]])
if how == "end":
    sys.exit("no certificate today")
for line in sys.stdin:
    print(line.strip(), flush=True)

#!/usr/bin/python3
"""The program, but for the commands that LOUD names: these write to standard error what no asker may see, and end with the code that the
file beside their folder's table says, or by SIGKILL if it says `signal`."""
import os
import pathlib
import signal
import sys

SAID = "record 0 holds 23074862, table gives 23087207"


def main():
    command = sys.argv[1]
    if command not in os.environ["LOUD"].split():
        os.execv(os.environ["AUDITOR"], [os.environ["AUDITOR"], *sys.argv[1:]])
    print(SAID, file=sys.stderr, flush=True)
    code = pathlib.Path(os.environ["CODE"]).read_text()
    if code == "signal":
        os.kill(os.getpid(), signal.SIGKILL)
    sys.exit(int(code))


if __name__ == "__main__":
    main()

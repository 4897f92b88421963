#!/usr/bin/python3
"""The program with a `simulate` that takes a while to begin. All other commands are the real program's, which AUDITOR names."""
import os
import sys
import time

if sys.argv[1] == "simulate":
    time.sleep(0.1)
os.execv(os.environ["AUDITOR"], [os.environ["AUDITOR"], *sys.argv[1:]])

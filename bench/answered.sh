#!/bin/sh
# What keys of a schema cost: how many of the questions of a report, of a drill-down, of conditions by chance and of intervals are answered over
# three tables that are drawn here, without the keys and with them. It isn't in the gate. Build the program first: demo/run.sh does; AUDITOR
# names another one, such as the plain program.
#
#   bench/answered.sh [--by-chance] KEY=VALUE ..     such as width=4 reach=50
. "$(dirname "$0")/in_memory.sh"
. "$(dirname "$0")/setup.sh"
python3 "$here/answered.py" "$program" "$@"

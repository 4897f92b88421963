#!/bin/sh
# Times the built program on 24 workloads beside the plain, unproved program of bench/plain, and prints the ratio of
# their times. Build the program first: demo/run.sh does. The plain one is built here, with cargo: for
# tables of 1,024 rows, and once more for 4,096.
#
#   bench/pace.sh [--rounds 3] [--only 1024-intervals-max] [--opening] [--shared] [KEY=VALUE ..]     such as width=4 askers=inside
. "$(dirname "$0")/in_memory.sh"
. "$(dirname "$0")/setup.sh"
build_plain 1024
small=$plain
build_plain 4096
python3 "$here/pace.py" "$program" "$small" "$plain" "$@"

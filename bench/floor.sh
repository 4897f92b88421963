#!/bin/sh
# Counts the instructions that the built program takes on eleven small workloads, with valgrind, and compares them with those of
# floor.txt: ends with 1 if one is above its count by more than a tenth. Counts are the same at each run, whatever else the machine
# does. Build the program first: demo/run.sh does.
#
#   bench/floor.sh            compares
#   bench/floor.sh --write    writes floor.txt anew, once a change is meant
. "$(dirname "$0")/in_memory.sh"
. "$(dirname "$0")/setup.sh"
command -v valgrind >/dev/null || { echo "floor: valgrind is missing" >&2; exit 2; }
python3 "$here/floor.py" "$program" "$here/floor.txt" "$@"

#!/bin/sh
# Counts, with valgrind, the instructions that the built program takes over pairs of tables that differ in their secrets alone and give
# the same replies, and compares them: those of opening the table, and those of the lines after it. Ends with 1 if replies differ, or
# if the lines take more over one table than over the other. Build the program first: demo/run.sh does.
#
#   bench/twin_instructions.sh
. "$(dirname "$0")/in_memory.sh"
. "$(dirname "$0")/setup.sh"
command -v valgrind >/dev/null || { echo "twin_instructions: valgrind is missing" >&2; exit 2; }
python3 "$here/twin_instructions.py" "$program"

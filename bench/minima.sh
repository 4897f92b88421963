#!/bin/sh
# Asks the built program minima of random small tables, and compares replies, journals, reports and certificates with those of the plain program of
# bench/plain, byte for byte, and each minimum with the table's. Prints how many were asked, and ends with 1 if anything differs. It isn't in the
# gate. Build the program first: demo/run.sh does. The plain one is built here, with cargo.
#
#   bench/minima.sh [QUESTIONS [SEED]]     10,000 if none is given, from seed 1 on
. "$(dirname "$0")/in_memory.sh"
questions=${1:-10000}
seed=${2:-1}
. "$(dirname "$0")/setup.sh"
build_plain
python3 "$here/minima.py" "$program" "$plain" "$questions" "$seed"

#!/bin/sh
# Asks random sums over small tables whose schemas state a width and a reach, drawn at random, and compares each verdict with what a plain
# script works out from the definition, by fractions. Prints how many of each kind there were, and ends with 1 if anything differs. It
# isn't in the gate. Build the program first: demo/run.sh does; AUDITOR names another one, such as the plain program's.
#
#   bench/limits.sh [--keys width] [ROUNDS [SEED]]     200 rounds if none is given, from seed 1 on; keys: width, reach, or width,reach
keys=width rounds=200
. "$(dirname "$0")/drawn.sh"
. "$here/setup.sh"
python3 "$here/limits.py" "$program" "$keys" "$rounds" "$seed"

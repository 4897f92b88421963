#!/bin/sh
# Asks the plain program of plain/ random questions over small tables whose rows stand for several people, and compares replies, certificates,
# reports and verdicts on transcripts with what a script works out from the definitions, by fractions: over the rows, and over all of their people
# one by one. Prints how many of each kind there were, and ends with 1 if anything differs. It isn't in the gate. AUDITOR names another
# program, such as the built one.
#
#   bench/over_people.sh [--keys width,askers] [TABLES [SEED]]     400 tables if none is given, from seed 1 on, of 25 questions each; keys: of
#                                                                width, reach, askers and fewest those that schemas state, none if none is given
keys= rounds=400
. "$(dirname "$0")/drawn.sh"
[ -n "${AUDITOR:-}" ] || { build_plain && AUDITOR=$plain; }
. "$here/setup.sh"
python3 "$here/over_people.py" "$program" "$keys" "$rounds" "$seed"

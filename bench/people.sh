#!/bin/sh
# Has random questions answered over random tables whose rows stand for several people, some of which grow, and compares what the built program
# replies, keeps, reports, explains, compacts, says of transcripts and of bad files with what the plain program of plain/ does, byte for byte; the
# demo's scripts have to take reports and certificates. Prints how many of each there were, and ends with 1 if anything differs. It isn't
# in the gate. Build the program first: demo/run.sh does. The plain one is built here, with cargo.
#
#   bench/people.sh [--keys width,askers] [ROUNDS [SEED]]     200 rounds if none is given, from seed 1 on; keys: of width, reach, askers and
#                                                             fewest those that schemas state, none if none is given
keys= rounds=200
. "$(dirname "$0")/drawn.sh"
. "$here/setup.sh"
build_plain
python3 "$here/people.py" "$program" "$plain" "$keys" "$rounds" "$seed"

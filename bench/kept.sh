#!/bin/sh
# Compacts random histories over small tables, and compares what is kept with what a plain program works out from the definition; then
# asks both journals 10,000 random questions each round. Prints how many records there were and how many were kept, and ends with 1
# if anything differs. It isn't in the gate. Build the program first: demo/run.sh does.
#
#   bench/kept.sh [--keys askers,fewest] [ROUNDS [SEED]]     40 rounds if none is given, from seed 1 on; keys: of width, reach, askers and fewest
#                                                            those that schemas state, none if none is given
keys= rounds=40
. "$(dirname "$0")/drawn.sh"
. "$here/setup.sh"
python3 "$here/kept.py" "$program" "$keys" "$rounds" "$seed"

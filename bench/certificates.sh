#!/bin/sh
# Has the built program explain random questions after random histories over small tables, and compares the lines with those of the plain
# program of bench/plain. demo/check_certificate.py has to take each certificate, and none with a number changed unless it is true by another
# way. Prints how many there were, and ends with 1 if anything differs. It isn't in the gate. Build the program first: demo/run.sh does. The
# plain one is built here, with cargo.
#
#   bench/certificates.sh [--keys askers,fewest] [ROUNDS [SEED]]     40 rounds if none is given, from seed 1 on; keys: of width, reach, askers
#                                                                    and fewest those that schemas state, none if none is given
keys= rounds=40
. "$(dirname "$0")/drawn.sh"
. "$here/setup.sh"
build_plain
python3 "$here/certificates.py" "$program" "$plain" "$keys" "$rounds" "$seed"

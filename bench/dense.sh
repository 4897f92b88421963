#!/bin/sh
# Times sums over the densest form that tables of 1,024 and 4,096 rows can have, beside the plain program of bench/plain, which has to send the
# same replies: without a key in the schema, with a width of 4, and with a width of 4 and a reach of 50, as front/prepare.py writes them unless
# others are chosen. Prints the milliseconds of a sum, the peak of memory and the seconds of opening the journal; ends with 1 if a reply differs.
# Build the program first: demo/run.sh does. The plain one is built here, with cargo.
#
#   bench/dense.sh [--rows 1024,4096] [--later 30]
. "$(dirname "$0")/in_memory.sh"
. "$(dirname "$0")/setup.sh"
build_plain
status=0
for keys in '' width=4 'width=4 reach=50'; do
    # The keys are words of their own.
    python3 "$here/dense.py" "$program" "$plain" "$@" $keys || status=1
done
exit $status

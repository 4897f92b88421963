#!/bin/sh
# Times `auditor explain` over 1,024 rows, or as many as are given, beside the plain program of bench/plain, which has to send the same lines: sums over intervals, over
# intervals or groups with maxima between them, after 1,200 records; maxima after 1,800; and sums of eight columns. Prints the seconds for
# opening and for the first certificate, the milliseconds for each further one, and the peak of memory; ends with 1 above a second, 10 ms or
# 64 MiB over 1,024 rows, or if a line differs. Build the program first: demo/run.sh does. The plain one is built here, with cargo.
#
#   bench/explain.sh [--only maxima] [--lines 200] [--rows 1024]
. "$(dirname "$0")/in_memory.sh"
. "$(dirname "$0")/setup.sh"
build_plain 4096
python3 "$here/explain.py" "$program" "$plain" "$@"

#!/bin/sh
# What somebody works out who knows more of the numbers than that they are whole, by answers that are all due: nine attacks over tables
# that are drawn here. Prints for each what it asked and how many numbers it has, and ends with 1 if one ends otherwise than is expected.
# The gate runs it without a key, with a width of 4, and with a reach of 50. Build the program first: demo/run.sh does; AUDITOR names another
# one, as the plain program's. It needs Debian's python3-scipy, which front/check.sh installs.
#
#   bench/range.sh [--held] [KEY=VALUE ..]     further keys of the schema; with --held those attacks alone that they hold off
. "$(dirname "$0")/in_memory.sh"
. "$(dirname "$0")/setup.sh"
/usr/bin/python3 "$here/range.py" "$program" "$@"

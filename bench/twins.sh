#!/bin/sh
# Measures what a second journal costs: instructions of a group with two journals beside those with one, without what syncs take, and
# questions a second a line at a time and in groups of 64, if each sync takes 2.5 ms. Ends with 1 if the replies differ, if two journals
# take more than a tenth above one, or if groups of 64 aren't 20 times as fast as single lines. Build the program first: demo/run.sh does.
#
#   bench/twins.sh
# A sync is as slow as it is made in a folder that is kept in memory.
. "$(dirname "$0")/in_memory.sh"
. "$(dirname "$0")/setup.sh"
command -v valgrind >/dev/null || { echo "twins: valgrind is missing" >&2; exit 2; }
cc -shared -fPIC -o slow_sync.so "$here/../front/tests/slow_sync.c" || exit 2
python3 "$here/twins.py" "$program" slow_sync.so

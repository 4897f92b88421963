#!/bin/sh
# Times `simulate` over a transcript of 58,000 exchanges over 1,000 rows, two sums to a maximum over random intervals, as the built
# program answered them in groups of 64: prints the least processor time of five runs, and ends with 1 if a verdict isn't that of its
# reply. Build the program first: demo/run.sh does.
#
#   bench/simulate.sh
. "$(dirname "$0")/in_memory.sh"
. "$(dirname "$0")/setup.sh"
python3 "$here/simulate.py" "$program"

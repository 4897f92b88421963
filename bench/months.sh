#!/bin/sh
# How many monthly totals are still answered over a table that lives, while people move, leave, come and get other numbers: for each kind of
# month a line, over five tables that are drawn here. Ends with 1 if a run ends otherwise than with 0, or if the total of everybody isn't
# answered where more than one person makes the difference. It isn't in the gate. Build the program first: demo/run.sh does.
#
#   bench/months.sh
. "$(dirname "$0")/in_memory.sh"
. "$(dirname "$0")/setup.sh"
python3 "$here/months.py" "$program"

#!/bin/sh
# An attack by 200 people of a table, each of whom knows her own numbers and asks for those of others: 2,000 sums and maxima that are made for it.
# Prints of how many people somebody else knows a number in the end, and compares each with the table: without the key `askers` there have to
# be some, with `"askers":"inside"` none. Ends with 1 otherwise. It isn't in the gate. AUDITOR names another program than the built one,
# such as the plain program's.
#
#   bench/askers.sh [--lines] [QUESTIONS [SEED]]     2,000 questions if none is given, from seed 1 on; with --lines a third of the rows are
#                                                    two or three people's
. "$(dirname "$0")/in_memory.sh"
. "$(dirname "$0")/setup.sh"
python3 "$here/askers.py" "$program" "$@"

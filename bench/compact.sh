#!/bin/sh
# Times `auditor compact` over full journals, 65,536 records over 1,024 rows, or as many as are given, beside opening them: sums and maxima over random
# intervals, and maxima that are all the same number over sets of which none is within another, which makes the most work. Prints the
# seconds and the peak of memory of both, and how many records were kept; ends with 1 if compact takes more than 10 seconds
# for each 1,024 rows, or 160 MiB and 64 for each 1,024 rows past the first.
# Build the program first: demo/run.sh does.
#
#   bench/compact.sh [ROWS]
rows=${1:-1024}
. "$(dirname "$0")/in_memory.sh"
. "$(dirname "$0")/setup.sh"
slow=0

# compact_full KIND TEXT
compact_full() {
    rm -f answers.journal answers.spare
    python3 "$here/journals.py" "$1" "$rows" || exit 1
    measure "$program" serve >replies || { echo "compact: the journal of $1 isn't opened" >&2; exit 1; }
    printf '%s: opened in %s s with %s MiB, ' "$2" "$seconds" "$mebibytes"
    measure "$program" compact >counts || { echo "compact: the journal of $1 isn't compacted" >&2; exit 1; }
    echo "compacted in $seconds s with $mebibytes MiB: $(cat counts)"
    echo "$seconds $mebibytes $rows" | awk '{ exit $1 > 10 * $3 / 1024 || $2 > 96 + 64 * $3 / 1024 }' || slow=1
}

compact_full sums 'sums over intervals'
compact_full maxima 'maxima over intervals'
compact_full alike 'maxima of one number over random halves'
compact_full late 'maxima of one number over sets that differ in the last 64 rows'
compact_full intervals 'maxima of one number over sets of twelve intervals'
compact_full threes 'maxima of one number over three rows each'
exit $slow

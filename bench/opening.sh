#!/bin/sh
# Times the built program when it opens a full journal, 65,536 records of sums and maxima in turn over random pairs of rows
# joined, none of which separates the two rows of a pair, so that no question is denied: over 200 rows, over 1,024 rows with
# 64 protected groups of half of the rows each, and over 4,096 rows. Prints the seconds and the peak of memory of each, and ends with 1 if
# these are more than 5, 30 and 30 seconds, or 80, 96 and 256 MiB, or if a journal isn't full. Then it opens a journal that grew 1,000 times, from 24
# rows to 1,024, and one of the same records without a growth, three times each, then the same over 4,096 rows, and ends with 1 if the first takes more than twice as
# long. Build the program first: demo/run.sh does.
#
#   bench/opening.sh
. "$(dirname "$0")/in_memory.sh"
. "$(dirname "$0")/setup.sh"

# A pair's number, two secrets, and twelve bits of each row, by which the groups are named.
write_table() {
    awk -v rows="$1" 'BEGIN { srand(1)
        printf "pair,pay,best"; for (bit = 0; bit < 12; bit++) printf ",h%d", bit; print ""
        for (row = 0; row < rows; row++) {
            printf "%d,%d,%d", row / 2, rand() * 100000, rand() * 1000
            for (bit = 0; bit < 12; bit++) printf ",%d", rand() * 2
            print ""
        } }' >table.csv
}

# The groups are the rows in which two of the bits are equal.
write_schema() {
    awk -v groups="$1" 'BEGIN {
        printf "{\"columns\":[{\"name\":\"pair\",\"is\":\"number\"},{\"name\":\"pay\",\"is\":\"sum\"},{\"name\":\"best\",\"is\":\"max\"}"
        for (bit = 0; bit < 12; bit++) printf ",{\"name\":\"h%d\",\"is\":\"number\"}", bit
        printf "]"
        if (groups > 0) printf ",\"protect\":["
        for (bit = 0; bit < 12; bit++) for (other = 0; other < bit; other++) if (number < groups)
            printf "%s{\"column\":\"pay\",\"where\":\"h%d = 0 and h%d = 0 or h%d = 1 and h%d = 1\"}", number++ ? "," : "", bit, other, bit, other
        print (groups > 0 ? "]}" : "}") }' >schema.json
}

write_questions() {
    awk -v pairs="$1" 'BEGIN { srand(2)
        for (line = 0; line < 65536; line++) {
            low = int(rand() * pairs); high = low + int(rand() * pairs); other = int(rand() * pairs)
            question = line % 2 ? "\"ask\":\"max\",\"column\":\"best\"" : "\"ask\":\"sum\",\"column\":\"pay\""
            print "{" question ",\"where\":\"pair >= " low " and pair <= " high " or pair = " other "\"}"
        } }' >questions.jsonl
}

# open_full ROWS GROUPS SECONDS MEBIBYTES: the journal is made by serving, and opened once more.
open_full() {
    rm -f answers.journal
    write_table "$1" && write_schema "$2" && write_questions $(($1 / 2)) || return 1
    "$program" init || return 1
    "$program" serve --batch 64 <questions.jsonl >replies.jsonl || return 1
    full=$(echo '{"ask":"sum","column":"pay","where":"all"}' | "$program" serve)
    if [ "$full" != '{"refused":"full"}' ] || grep -q denied replies.jsonl; then
        echo "opening: the journal isn't full" >&2
        return 1
    fi
    measure "$program" serve || return 1
    echo "$seconds $mebibytes $(wc -c <answers.journal) $*" | awk '{
        printf "65,536 records over %d rows with %d protected groups, %d bytes: %.2f s, %.1f MiB\n", $4, $5, $3, $1, $2
        exit $1 > $6 || $2 > $7 }'
}

# open_written KIND ROWS TEXT: the least of three times, to which `least` is set.
open_written() {
    python3 "$here/journals.py" "$1" "$2" || return 1
    least=
    for turn in 1 2 3; do
        measure "$program" serve || return 1
        least=$(echo "$seconds $least" | awk '{ print $2 == "" || $1 < $2 ? $1 : $2 }')
    done
    echo "65,536 records, $3, $(wc -c <answers.journal) bytes: $least s, $mebibytes MiB"
}

# open_grown ROWS TEXT GROWTHS
open_grown() {
    open_written widened "$1" "over $2 rows without a growth" || return 1
    without=$least
    open_written grown "$1" "over 24 to $2 rows with $3 growths" || return 1
    echo "$least $without" | awk '{ exit $1 > 2 * $2 }'
}

open_full 200 0 5 80 || exit 1
open_full 1024 64 30 96 || exit 1
open_full 4096 0 30 256 || exit 1
open_grown 1024 1,024 1,000 || exit 1
open_grown 4096 4,096 4,072

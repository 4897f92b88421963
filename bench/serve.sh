#!/bin/sh
# Times the built program on sums and maxima over random tables, beside an awk program that answers the same lines without
# auditing and flushes each reply. Prints for each case the seconds, the questions a second and the peak of memory, with the
# number of answers and denials: line by line, in groups of 64 lines over a journal of their own, which have to give the same
# replies, and without questions, which opens the journal and decides each record again. What groups save is syncs, so let
# TMPDIR be on a disk. Build the program first: demo/run.sh does.
#
#   bench/serve.sh [QUESTIONS]        2,000 if none is given; a quarter of them of maxima alone
most=${1:-2000}
. "$(dirname "$0")/setup.sh"
given=questions.jsonl
echo '{"columns":[{"name":"band","is":"number"},{"name":"age","is":"number"},{"name":"pay","is":"sum"},{"name":"best","is":"max"}]}' >schema.json

# A table of so many rows. Ages are spread over four times as many numbers.
table() {
    awk -v rows="$1" 'BEGIN { srand(1); print "band,age,pay,best"
        for (row = 0; row < rows; row++)
            print int(rand() * 8) "," int(rand() * rows * 4) "," int(rand() * 100000) "," int(rand() * 1000) }' >table.csv
}

# So many questions over random intervals of age: of sums, of maxima, or of both in turn with a band beside.
lines() {
    awk -v rows="$1" -v kind="$2" -v count="$3" 'BEGIN { srand(2)
        for (line = 0; line < count; line++) {
            low = int(rand() * rows * 4); high = low + int(rand() * rows * 4)
            condition = "age >= " low " and age <= " high
            if (kind == "both") condition = condition " or band = " int(rand() * 8)
            if (kind == "sums" || kind == "both" && line % 2 == 0) question = "\"ask\":\"sum\",\"column\":\"pay\""
            else question = "\"ask\":\"max\",\"column\":\"best\""
            print "{" question ",\"where\":\"" condition "\"}" } }' >questions.jsonl
}

# Answers the lines without looking at what was answered before.
plain() {
    awk 'FNR == NR { if (FNR > 1) { split($0, cell, ","); rows++; band[rows] = cell[1]; age[rows] = cell[2]; pay[rows] = cell[3]; best[rows] = cell[4] } next }
        { split($0, word, /[ "}]+/); low = high = group = -1
          for (k = 1; k in word; k++) { if (word[k] == ">=") low = word[k + 1]; if (word[k] == "<=") high = word[k + 1]; if (word[k] == "band") group = word[k + 2] }
          sum = 0; top = ""
          for (row = 1; row <= rows; row++)
              if (age[row] + 0 >= low + 0 && age[row] + 0 <= high + 0 || band[row] + 0 == group + 0) { sum += pay[row]; if (top == "" || best[row] + 0 > top + 0) top = best[row] }
          if (top == "") print "{\"refused\":\"empty\"}"; else if ($0 ~ /"sum"/) print "{\"sum\":" sum "}"; else print "{\"max\":" top "}"
          fflush() }' table.csv -
}

# Runs a command on the questions and prints its seconds, its questions a second, and its peak of memory.
timed() {
    name=$1
    shift
    measure "$@" >"$name.replies" || exit 1
    echo "$name $begin $end $mebibytes $(wc -l <questions.jsonl)" |
        awk '{ printf "  %-8s %8.2f s %8.0f questions/s %8.1f MiB\n", $1, $3 - $2, $5 / ($3 - $2), $4 }'
}

for rows in 200 1024 4096; do
    for kind in sums maxima both; do
        table "$rows"
        if [ "$kind" = maxima ]; then lines "$rows" "$kind" $((most / 4)); else lines "$rows" "$kind" "$most"; fi
        rm -f answers.journal
        "$program" init || exit 1
        echo "$rows rows, $kind"
        timed auditor "$program" serve
        rm answers.journal
        "$program" init || exit 1
        timed groups "$program" serve --batch 64
        cmp auditor.replies groups.replies || exit 1
        timed plain plain
        : >questions.jsonl
        timed opening "$program" serve
        awk '/sum|max/ { answers++ } /unsafe/ { unsafe++ } /wide/ { wide++ } END { printf "  answered %d, unsafe %d, wide %d\n", answers, unsafe, wide }' auditor.replies
    done
done

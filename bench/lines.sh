#!/bin/sh
# Times the built program on a million count lines, beside an awk program that reads the same lines and flushes a reply
# for each. Build the program first: demo/run.sh does.
lines=${1:-1000000}
. "$(dirname "$0")/setup.sh"
printf '{"columns":[{"name":"age","is":"number"}]}' >schema.json
printf 'age\n30\n41\n35\n52\n28\n44\n' >table.csv
yes '{"ask":"count","where":"all"}' | head -n "$lines" >questions.jsonl
"$program" init || exit 1

# Prints the seconds that a command takes on the questions.
seconds() {
    name=$1
    shift
    begin=$(date +%s.%N)
    "$@" <questions.jsonl >"$name.replies" || exit 1
    end=$(date +%s.%N)
    echo "$name $begin $end" | awk '{ printf "%s: %.2f s\n", $1, $3 - $2 }'
}

for turn in 1 2 3; do
    seconds auditor "$program" serve
    seconds awk awk '{ if ($0 == "{\"ask\":\"count\",\"where\":\"all\"}") print "{\"count\":6}"; else print "{\"refused\":\"line\"}"; fflush() }'
done
cmp auditor.replies awk.replies && wc -l <auditor.replies

#!/bin/sh
# Shows a table that gets a row at its end: the journal grows to it, what was answered before still counts, and a question whose
# difference from an earlier one is the new row is denied. Replies are compared with those due, worked out by hand from
# demo/table.csv. Works in a folder of its own.
#
#   demo/grow.sh PROGRAM
set -u
demo=$(cd "$(dirname "$0")" && pwd)
program=$(cd "$(dirname "$1")" && pwd)/$(basename "$1")
folder=$(mktemp -d) || exit 1
trap 'rm -rf "$folder"' EXIT
cp "$demo/schema.json" "$demo/table.csv" "$folder" && cd "$folder" || exit 1

# Runs the program with these arguments; its status has to be the first, and what it says on its standard error the second.
ends() {
    wanted=$1 text=$2
    shift 2
    "$program" "$@" >replies.jsonl 2>complaint
    status=$?
    [ $status = "$wanted" ] && [ "$(cat complaint)" = "$text" ] && return 0
    echo "demo: auditor $* ended with $status and said \"$(cat complaint)\"" >&2
    exit 1
}

ends 0 "" init
ends 0 "" serve <<'END'
{"user":"ann","ask":"sum","column":"salary","where":"all"}
{"user":"ann","ask":"max","column":"bonus","where":"all"}
END
printf '{"sum":320500}\n{"max":9}\n' | cmp replies.jsonl - || exit 1

cp table.csv earlier.csv
echo 'Design,33,45000,5' >>table.csv
head -n "$(wc -l <earlier.csv)" table.csv | cmp - earlier.csv || exit 1
ends 10 "journal is of another table: rows 6, now 7" serve </dev/null
ends 0 "" grow
ends 17 "nothing to grow: rows 7" grow
ends 0 "" serve <<'END'
{"user":"bob","ask":"sum","column":"salary","where":"all"}
{"user":"bob","ask":"sum","column":"salary","where":"team = 'Design'"}
{"user":"bob","ask":"count","where":"all"}
END
printf '{"denied":"unsafe"}\n{"sum":106000}\n{"count":7}\n' | cmp replies.jsonl - || exit 1
ends 0 "" audit
echo "the journal grew by a row, and the total that would show it is denied" >&2

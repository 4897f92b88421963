# Read by edges.sh, two_disks.sh, attacks.sh and statuses.sh, after `set -u` and with their arguments: finds the program, makes a folder that is
# gone at the end, and has what they say of an end. If no program is given it is the one that run.sh built in the source, or the package's own.
demo=$(cd "$(dirname "$0")" && pwd)
built=${1:-$demo/../crates/auditor/out/auditor}
[ $# -gt 0 ] || [ -e "$built" ] || built=$demo/../../../bin/auditor
if [ ! -f "$built" ] || [ ! -x "$built" ]; then
    echo "${1:+there is no program $1; }give the program; in the source run.sh builds it" >&2
    exit 1
fi

top=$(mktemp -d) || exit 1
trap 'umount "$top/disk" 2>/dev/null; rm -rf "$top"' EXIT
chmod 755 "$top"
cp "$built" "$top/auditor" || exit 1
program=$top/auditor
wrong=0

# Goes to a fresh folder with the demo's files, and makes its journal.
fresh() {
    cd "$top" && rm -rf run && mkdir run && cd run || exit 1
    cp "$demo/schema.json" "$demo/table.csv" "$demo/questions.jsonl" . || exit 1
    "$program" init || exit 1
    cp answers.journal made.journal
}

# Prints a line for an end, with the status that was seen and what was said, and a mark if another status was due.
tell() {
    mark=' '
    [ "$2" = "$3" ] || { mark='!'; wrong=$((wrong + 1)); }
    printf '%s %-60s %3s  %s\n' "$mark" "$1" "$3" "$(cat said 2>/dev/null)"
}

# Complains of an end.
complain() {
    echo "! $*"
    wrong=$((wrong + 1))
}

# Reports an end, and checks that what the journal holds is as it was made.
tell_unwritten() {
    cmp -s answers.journal made.journal || complain "the journal was written: $1"
    tell "$@"
}

# The number of records of the journal in this file, by its groups, each a gate and a count.
records() {
    od -An -v -tu1 -w1 "$1" | awk '
        { byte[NR - 1] = $1 + 0 }
        END {
            width = int((byte[9] * 256 + byte[10] + 7) / 8)
            for (gate = 20; byte[gate] == 1; gate += 2 + byte[gate + 1] * (9 + width)) count += byte[gate + 1]
            print count + 0
        }'
}

# Starts a run on a pipe, which is open as number 4, and waits for the replies to three lines of the demo. Arguments are those of `serve`.
open_run() {
    mkfifo lines
    : >first
    "$program" serve "$@" <lines >first 2>said &
    run=$!
    exec 4>lines
    head -n 3 questions.jsonl >&4
    await has_lines 3 first
}

# Waits until a command succeeds, for a minute or two at most.
await() {
    turns=0
    until "$@" || [ $((turns += 1)) -gt 1200 ]; do sleep 0.05; done
}

# Whether a file has so many lines.
has_lines() {
    [ "$(wc -l <"$2")" -ge "$1" ]
}

# Asks the open run for a sum more, ends its input, and sets `status` to what it ends with.
end_run() {
    echo '{"ask":"sum","column":"salary","where":"all"}' >&4
    exec 4>&-
    wait "$run"
    status=$?
}

# Says how many ends were not those that were due, and ends with 1 if some weren't.
conclude() {
    [ "$wrong" = 0 ] || echo "$wrong of these are not what was due"
    [ "$wrong" = 0 ]
}

# Whether the program can be run as a user who owns nothing here.
can_be_nobody() {
    [ "$(id -u)" = 0 ] && setpriv --reuid=65534 --regid=65534 --clear-groups true 2>/dev/null
}

as_nobody() {
    setpriv --reuid=65534 --regid=65534 --clear-groups "$program" "$@"
}

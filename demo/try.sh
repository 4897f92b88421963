#!/bin/sh
# Answers questions with the program as it runs without its proof: a minute or two on four processors, where demo/run.sh takes half an hour and
# more the first time. Nothing is proved by it, as its first and last line say, and it leaves nothing behind.
#
# Without arguments it asks the demo's questions over the demo's table, and compares the replies with those due. The journal is the one that
# `auditor init` makes for that table. With a folder that front/prepare.py made it asks the questions after it, as front/ask.py takes them, or
# those that are typed: over a copy of the journal there, or as if nothing had been asked before. The folder stays as it is. The exit status is 0
# if the replies are those due, or if every question was answered.
set -u
usage() {
    cat <<'WORDS'
usage: demo/try.sh                        asks the demo's questions of the program as it runs without its proof, in a minute or two
       demo/try.sh FOLDER [QUESTION ..]   asks yours over a folder that front/prepare.py made, or reads a question a line until its end (Ctrl-D)
Nothing is proved by it, nothing is kept, and answers from it aren't to be published. Needs the Rattle kit; with a folder Python 3.10 or later.
WORDS
}
case ${1-} in
-h | --help) usage; exit 0 ;;
-*) usage >&2; exit 2 ;;
esac
demo=$(cd "$(dirname "$0")" && pwd)
crate=$(dirname "$demo")/crates/auditor
trial=$demo/trial.py
if [ ! -d "$crate" ]; then
    echo "try: this is for the source; in a package the program is built, and run.sh PROGRAM shows it" >&2
    exit 1
fi
if ! command -v rt >/dev/null; then
    echo "try: the Rattle kit is missing, which has rt: without it take a package, which has the built program" >&2
    exit 1
fi

due=80                              # seconds on four processors that do nothing else; twice that is a multiple of ten
folder=$(mktemp -d) || exit 1
clock='' work=''
finish() {
    [ -z "$clock" ] || kill "$clock" 2>/dev/null
    [ -z "$work" ] || { kill "$work" 2>/dev/null; wait "$work" 2>/dev/null; }
    clock='' work=''
    rm -rf "$folder"
}
stop() {
    trap '' HUP INT TERM
    finish
    printf '\ntry: stopped; nothing is left behind\n' >&2
    exit 130
}
trap finish EXIT
trap stop HUP INT TERM

# Says every ten seconds that it is still at work, and once that it takes longer than it should.
tell_time() {
    seconds=0
    while sleep 10 >/dev/null 2>&1; do
        seconds=$((seconds + 10))
        printf ' %d s' "$seconds" >&2
        [ "$seconds" != $((2 * due)) ] ||
            printf '\nit is still building, and this machine is busy: Ctrl-C is safe, and leaves nothing behind\n' >&2
    done
}

# Builds the program and has it answer the questions of a file over a table and a journal, into $folder/replies.jsonl.
answer() {
    printf 'building it, about %d s on four processors that do nothing else:' "$due" >&2
    tell_time &
    clock=$!
    # A program that reads files can't run on the interpreter, which would try for some seconds: so one step.
    cd "$crate" || exit 1
    rt try --steps 1 --data schema.json="$1/schema.json" --data table.csv="$1/table.csv" --data answers.journal="$2" \
        -- serve <"$3" >"$folder/replies.jsonl" 2>"$folder/said" &
    work=$!
    wait "$work"
    status=$?
    work=
    kill "$clock" 2>/dev/null
    clock=
    echo >&2
    if [ "$status" != 0 ]; then
        cat "$folder/said" >&2
        echo "try: the program ended with status $status, which docs/STATUSES.md explains" >&2
        exit 1
    fi
}

# Each question of the demo, its reply below it, and what that means.
show() {
    # A blank line is no question.
    grep -v '^$' "$1" | paste -d '\n' - "$2" | awk '
        NR % 2 { print; next }
        /"num"/ { words = "an average: num divided by den, exactly" }
        /"denied"/ { words = "not answered: the answer, with those before, could give one person away" }
        /"at"/ { words = "not a question: its condition goes wrong at this byte, counted from 0" }
        /"empty"/ { words = "not a question: no row is in it" }
        /"kind"/ { words = "not a question: this column is kept for another kind of number" }
        { printf words ? "    %-26s  %s\n" : "    %s\n", $0, words; words = "" }'
}

echo "nothing here is proved: this is the program as it runs without its proof${1:+, and answers from it are not to be published}" >&2
if [ $# -gt 0 ]; then
    table=$(cd "$1" 2>/dev/null && pwd) || { echo "try: there is no folder $1: front/prepare.py make writes one" >&2; exit 1; }
    shift
    python3 "$trial" begin "$table" "$folder" "$@" || exit
    answer "$table" "$folder/answers.journal" "$folder/questions.jsonl"
    python3 "$trial" end "$table" "$folder"
    status=$?
    echo "nothing was proved or kept, and these answers are not to be published: demo/run.sh proves the program" >&2
    exit "$status"
fi
answer "$demo" "$crate/data/answers.journal" "$demo/questions.jsonl"
show "$demo/questions.jsonl" "$folder/replies.jsonl"
cmp "$folder/replies.jsonl" "$demo/replies.jsonl" >&2 || { echo "try: these aren't the replies that are due" >&2; exit 1; }
echo "all replies are as expected, and nothing was proved: demo/run.sh proves the program, and goes on with it" >&2

#!/bin/sh
# Refuses the program one request for memory after the other, in each command over the demo's files, by a library that is loaded
# before the C library. Each run has to end as one that was refused nothing, or with 15 and its text, and then: what was sent is a
# front of what is due, `init` can be run again, and a run over the lines without a reply gives the replies that are left.
# Prints for each command how many requests were refused and how often it ended with 15; the status is 1 if a run did
# otherwise. Needs `cc`. Build the program first: demo/run.sh does.
#
#   bench/memory.sh
. "$(dirname "$0")/setup.sh"
demo=$here/../demo
cc -shared -fPIC -O2 -o refuse.so "$here/refuse/refuse.c" || exit 1
cp "$demo/schema.json" "$demo/table.csv" . || exit 1
grep . "$demo/questions.jsonl" >questions.jsonl
wrong=0

complain() {
    echo "memory: $1, request $request refused: $2"
    wrong=$((wrong + 1))
}

# Runs a command with one request refused, and sets `status`.
refused() {
    LD_PRELOAD=./refuse.so REFUSE=$request REQUESTS=requests "$program" "$@" 2>said
    status=$?
}

# Whether what was sent is a front of what is due, and all of it at status 0; other statuses are 15, with its text.
is_due() {
    cmp -s -n "$(wc -c <sent)" sent due || complain "$1" "sent what is not due"
    case $status in
    0) cmp -s sent due || complain "$1" "done, but not all was sent" ;;
    15) [ "$(cat said)" = "out of memory" ] || complain "$1" "said $(cat said)" ;;
    *) complain "$1" "ended with $status" ;;
    esac
}

# The run over the journal that was left, with the lines that have no reply.
goes_on() {
    tail -n +$(($(wc -l <sent) + 1)) questions.jsonl >rest.jsonl
    "$program" "$@" <rest.jsonl >>sent || complain "$1" "the next run ended with $?"
    cmp -s sent due || complain "$1" "the next run replied otherwise"
}

begins_again() {
    [ $status = 0 ] || "$program" init || complain init "the next init ended with $?"
    cmp -s answers.journal made.journal || complain init "the journal is another one"
}

# Calls a function for one refused request after the other, until there are no more.
each_request() {
    request=0
    ends=0
    while
        request=$((request + 1))
        "$1"
        [ $status = 15 ] && ends=$((ends + 1))
        [ "$request" -lt "$(cat requests)" ] || [ $status = 15 ]
    do :; done
    echo "$2: $request requests, $ends times out of memory"
}

try_init() {
    rm -f answers.journal
    refused init >sent
    is_due init
    begins_again
}

try_serve() {
    cp made.journal answers.journal
    refused serve --batch "$batch" <questions.jsonl >sent
    is_due serve
    goes_on serve --batch "$batch"
}

try_audit() {
    refused audit >sent
    is_due audit
}

try_explain() {
    refused explain <questions.jsonl >sent
    is_due explain
    cmp -s answers.journal served.journal || complain explain "the journal is another one"
}

try_simulate() {
    refused simulate <transcript.jsonl >sent
    is_due simulate
}

"$program" init || exit 1
cp answers.journal made.journal
: >due
each_request try_init init

cp "$demo/replies.jsonl" due
for batch in 1 4; do
    each_request try_serve "serve --batch $batch"
done

"$program" audit >due || exit 1
each_request try_audit audit

cp "$demo/explained.jsonl" due
cp answers.journal served.journal
each_request try_explain explain

paste -d '\n' questions.jsonl "$demo/replies.jsonl" >transcript.jsonl
cp "$demo/public.csv" table.csv
for journal in answers.journal none; do
    "$program" simulate <transcript.jsonl >due || exit 1
    each_request try_simulate "simulate, journal $journal"
    rm -f answers.journal
done
[ $wrong = 0 ]

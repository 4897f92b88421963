#!/bin/sh
# Kills the serving program at random moments, opens it again, and compares what left with what the journal kept: in each
# round the new records are those of the replies that left whole, in order, and at most one more. Prints figures, and ends
# with 0 if that held in every round. Each fifty rounds begin a new table and journal. Build the program first:
# demo/run.sh does.
#
# With --twin the program keeps two journals. In each round both begin with the records of all replies that ever left whole; the
# spare has at most one more than those, and the journal is as long, or one shorter. Every twentieth round one of the two is lost: a
# run that restores it is killed, and another one does it. Then both have one history.
#
#   bench/kill.sh [--twin] [ROUNDS]        1,000 if none is given
twin=
[ "${1:-}" != --twin ] || { twin=--twin && shift; }
rounds=${1:-1000}
. "$(dirname "$0")/setup.sh"
echo '{"columns":[{"name":"age","is":"number"},{"name":"pay","is":"sum"},{"name":"best","is":"max"}]}' >schema.json

# A table of sixty rows, a journal, and questions that no run comes to the end of.
begin() {
    awk -v seed="$1" 'BEGIN { srand(seed); print "age,pay,best"
        for (row = 0; row < 60; row++) print int(rand() * 90) "," int(rand() * 100000) "," int(rand() * 1000) }' >table.csv
    awk -v seed="$1" 'BEGIN { srand(seed + 1)
        for (line = 0; line < 5000; line++) {
            low = int(rand() * 90); high = low + int(rand() * 60)
            kind = rand()
            if (kind < 0.1) print "{\"ask\":\"count\",\"where\":\"age >= " low "\"}"
            else print "{\"ask\":\"" (kind < 0.2 ? "max\",\"column\":\"best" : "sum\",\"column\":\"pay") "\",\"where\":\"age >= " low " and age <= " high "\"}"
        } }' >all.jsonl
    rm -f answers.journal answers.spare
    "$program" init || exit 1
    [ -z "$twin" ] || "$program" restore || exit 1
    : >before
    sure=0
}

# The records of a journal, a line each: the kind of the column, and the answer.
records() {
    od -An -v -tu1 -w1 "$1" | awk '
        { byte[NR - 1] = $1 + 0 }
        END {
            width = int((byte[9] * 256 + byte[10] + 7) / 8)
            for (gate = 20; byte[gate] == 1; gate = at) {
                at = gate + 2
                for (left = byte[gate + 1]; left > 0; left--) {
                    answer = 0
                    for (place = 1; place <= 8; place++) answer = answer * 256 + byte[at + place]
                    print (byte[12 + byte[at]] == 1 ? "sum " : "max ") answer
                    at += 9 + width
                }
            }
            if (gate >= NR) print "the journal has no end"
        }'
}

# The answers among the replies that left whole, in the same form. A reply that was cut off has no line feed, so `read` passes
# over it.
answers() {
    while read -r reply; do echo "$reply"; done <replies |
        sed -n -e 's/^{"sum":\([0-9]*\)}$/sum \1/p' -e 's/^{"max":\([0-9]*\)}$/max \1/p'
}

complain() {
    echo "round $round: $*"
    wrong=$((wrong + 1))
}

# Compares a journal with what was held before this round and the answers that left since.
compare() {
    records "$1" >after
    answers >answers
    cat before answers | cmp -s - after && return
    kept=$(wc -l <after)
    cat before answers | head -n $((kept - 1)) >without_last
    if [ "$kept" = $(($(wc -l <before) + $(wc -l <answers) + 1)) ] && head -n $((kept - 1)) after | cmp -s - without_last; then
        unsent=$((unsent + 1))
    else
        complain "$1 doesn't hold what left, in order"
    fi
}

# Compares the journal with the spare, which may have a record more, and with all that ever left: by then so many records were sure.
compare_twins() {
    records answers.journal >shorter
    [ ! -s answers ] || sure=$(($(wc -l <before) + $(wc -l <answers)))
    kept=$(wc -l <shorter)
    head -n "$kept" after | cmp -s - shorter || complain 'the journal has other records than the spare'
    [ "$kept" -ge "$sure" ] || complain "the journal lacks a record of an answer that left"
    case $(($(wc -l <after) - kept)) in
    0) ;;
    1) ahead=$((ahead + 1)) ;;
    *) complain 'the spare is further ahead than a record' ;;
    esac
}

# Loses one of the two files, of which the longer one stays, and has it restored by a run that is killed and one that isn't.
lose_and_restore() {
    lost=answers.journal kept=answers.spare
    if [ $((round % 40)) = 0 ] && [ "$(wc -l <shorter)" = "$(wc -l <after)" ]; then lost=answers.spare kept=answers.journal; fi
    rm "$lost"
    "$program" restore 2>said &
    sleep "$(awk -v seed="$round" 'BEGIN { srand(seed); printf "%.4f", rand() * 0.006 }')"
    kill -9 $! 2>/dev/null
    wait $! 2>/dev/null
    "$program" restore 2>said
    case $? in
    0) restored=$((restored + 1)) ;;
    22) ;;
    *) complain "$(cat said)" ;;
    esac
    records "$lost" | cmp -s - after || complain "$lost was restored with another history"
    records "$kept" | cmp -s - after || complain "$kept is another one after restoring"
}

round=0 killed=0 ended=0 silent=0 cut=0 unsent=0 wrong=0 left=0 ahead=0 restored=0
since=$(date +%s)
for wait in $(awk -v rounds="$rounds" 'BEGIN { srand(7); for (round = 0; round < rounds; round++) printf "%.4f\n", rand() * 0.2 }'); do
    [ $((round % 50)) = 0 ] && begin "$round"
    round=$((round + 1))
    awk -v seed="$round" 'BEGIN { srand(seed); from = int(rand() * 4000) } NR > from' all.jsonl >questions.jsonl
    # A round may be killed before it has come to empty these.
    : >replies
    : >said
    "$program" serve $twin <questions.jsonl >replies 2>said &
    sleep "$wait"
    kill -9 $! 2>/dev/null
    wait $! 2>/dev/null
    case $? in
    137) killed=$((killed + 1)) ;;
    0) ended=$((ended + 1)) ;;
    *) complain "$(cat said)" ;;
    esac
    [ -s replies ] || silent=$((silent + 1))
    [ "$(tail -c 1 replies | od -An -tu1 | tr -d ' ')" = 10 ] || [ ! -s replies ] || cut=$((cut + 1))
    if [ -n "$twin" ]; then compare answers.spare; else compare answers.journal; fi
    if [ -n "$twin" ]; then
        compare_twins
        [ $((round % 20)) != 0 ] || lose_and_restore
    fi
    left=$((left + $(wc -l <answers)))
    mv after before
done
: | "$program" serve $twin || wrong=$((wrong + 1))
if [ -n "$twin" ]; then
    records answers.journal | cmp -s - before || complain 'the last run left another journal'
    records answers.spare | cmp -s - before || complain 'the last run left another spare'
fi
echo "$rounds rounds in $(($(date +%s) - since)) s: $killed killed, $ended ended before; $silent before the first reply, $cut within a reply"
echo "$left answers left whole, and the record of each is in the journal${twin:+ and in the spare}, in order; $unsent records more, whose replies didn't leave"
[ -z "$twin" ] || echo "$ahead times the spare was a record ahead; $restored times a lost journal was restored after a run that was killed doing it"
[ "$wrong" = 0 ] || echo "$wrong rounds are wrong"
[ "$wrong" = 0 ]

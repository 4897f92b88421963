#!/bin/sh
# Does to the journal, and to a second one, what somebody with leave to write their folder might do, most of it while a run has them open,
# and prints what the run then ended with and said. Ends with 0 if each end is the one that is due: a run that no longer has a journal's
# name, or finds it cut off or written by somebody else, sends nothing more, and no answer leaves whose record isn't in the journal.
# Where strace can trace, it also stops a run after each call of the system on a journal, and has somebody make or replace the file
# before it goes on: what the other run answered stays.
#
#   demo/attacks.sh [PROGRAM]
set -u
. "$(dirname "$0")/ends.sh"

# Reports the end of the open run, which sent three replies and no fourth, or four if it had to go on.
tell_run() {
    end_run
    tell "$1" "$2" "$status"
    sent=3
    [ "$2" = 0 ] && sent=4
    [ "$(wc -l <first)" = "$sent" ] || complain "$(wc -l <first) replies left, not $sent: $1"
}

echo "  what was done to the journal                                 status  text"

fresh
open_run
tell_run 'nothing' 0
[ "$(records answers.journal)" = 3 ] || complain 'the journal has not three records'

# The sums over a row and the others, asked of two runs, would give a number away.
fresh
open_run
cp answers.journal copy.journal
mv copy.journal answers.journal
"$program" serve <questions.jsonl >second 2>/dev/null
[ $? = 0 ] || complain 'a run over the copy failed'
tell_run 'a copy is renamed over it' 6
cmp -s second "$demo/replies.jsonl" || complain 'the run over the copy sent other replies'

fresh
open_run
rm answers.journal
"$program" init || complain 'init failed'
tell_run 'it is removed, and a new one made' 6
[ "$(records answers.journal)" = 0 ] || complain 'the new journal has records'

fresh
open_run
mv answers.journal elsewhere
ln -s elsewhere answers.journal
tell_run 'it is moved, and a link to it put in its place' 6

fresh
open_run
mv answers.journal elsewhere
mv elsewhere answers.journal
tell_run 'it is moved away and back' 0

fresh
open_run
cp answers.journal before
truncate -s 0 answers.journal
tell_run 'it is cut off' 6
[ ! -s answers.journal ] || complain 'the run wrote behind the cut'

fresh
open_run
truncate -s -1 answers.journal
tell_run 'its last byte is cut off' 6

fresh
open_run
echo more >>answers.journal
tell_run 'somebody writes behind its end' 6
"$program" serve <questions.jsonl >replies 2>said
tell 'the next run over that' 0 $?

fresh
"$program" serve <questions.jsonl >>answers.journal 2>said
tell 'the replies are sent behind its end' 6 $?
"$program" serve <questions.jsonl >replies 2>said
tell 'the next run over that' 0 $?

# They pass the end of so short a journal. In one that stays as long only the next run notices it.
fresh
"$program" serve <questions.jsonl 1<>answers.journal 2>said
tell 'the replies are sent over its front' 6 $?
"$program" serve <questions.jsonl >replies 2>said
tell 'the next run over that' 7 $?

fresh
mv answers.journal elsewhere
ln -s elsewhere answers.journal
for command in serve audit init; do
    "$program" "$command" <questions.jsonl >replies 2>said
    tell "$command over a link to it" 6 $?
    [ ! -s replies ] || complain "$command over a link sent something"
done
cmp -s elsewhere made.journal || complain 'what the link leads to was written'

# A file of fewer bytes than a journal has isn't a journal yet, so `init` would write over it.
fresh
rm answers.journal
printf 'v\n1\n2\n' >small.csv
ln -s small.csv answers.journal
"$program" init 2>said
tell 'init over a link to a small file' 6 $?
[ "$(cat small.csv)" = "$(printf 'v\n1\n2')" ] || complain 'what the link leads to was written'

fresh
rm answers.journal
ln -s nowhere answers.journal
for command in serve init; do
    "$program" "$command" <questions.jsonl >replies 2>said
    tell "$command over a link that leads nowhere" 6 $?
done
[ ! -e nowhere ] || complain 'what the link leads to was made'

fresh
chmod 400 answers.journal
for command in serve init; do
    "$program" "$command" <questions.jsonl >replies 2>said
    tell_unwritten "$command, when nobody may write it" 6 $?
done
"$program" audit >report 2>said
tell_unwritten 'audit, when nobody may write it' 0 $?
chmod u+w answers.journal
"$program" serve <questions.jsonl >replies 2>said
tell 'serve, once its owner may write it again' 0 $?

# A fresh folder with a spare, which a run with both has open. The journal has two records of the three replies.
open_twins() {
    fresh
    "$program" restore || complain 'the spare was not made'
    open_run --twin
}

# The same as tell_run, after the spare was attacked: the fourth answer isn't in the journal either.
tell_twins() {
    tell_run "$@"
    [ "$2" = 0 ] || [ "$(records answers.journal)" = 2 ] || complain "the journal has $(records answers.journal) records: $1"
}

open_twins
tell_twins 'nothing, with a spare' 0
[ "$(records answers.spare)" = 3 ] || complain 'the spare has not three records'

open_twins
cp answers.spare copy.spare
mv copy.spare answers.spare
tell_twins 'a copy is renamed over the spare' 19

open_twins
rm answers.spare
"$program" restore 2>refused && complain 'a run restored the spare beside an open run'
tell_twins 'the spare is removed' 19

open_twins
mkdir elsewhere && mv answers.spare elsewhere && ln -s elsewhere/answers.spare answers.spare
tell_twins 'the spare is moved, and a link to it put in its place' 19

open_twins
truncate -s 0 answers.spare
tell_twins 'the spare is cut off' 19
[ ! -s answers.spare ] || complain 'the run wrote behind the cut'

open_twins
echo more >>answers.spare
tell_twins 'somebody writes behind the end of the spare' 19
"$program" serve --twin <questions.jsonl >replies 2>said
tell 'the next run over that' 0 $?

open_twins
cp answers.journal copy.journal
mv copy.journal answers.journal
tell_run 'a copy is renamed over the journal of twins' 6
[ "$(records answers.journal)" = 2 ] && [ "$(records answers.spare)" = 3 ] || complain 'the spare is not a record ahead of the copy'
"$program" serve --twin <questions.jsonl >replies 2>said
tell 'the next run over that' 0 $?
cmp -s replies "$demo/replies.jsonl" || complain 'other replies after that'

# The two names exchanged are the same two journals.
open_twins
tell_run 'nothing' 0
mv answers.journal other && mv answers.spare answers.journal && mv other answers.spare
"$program" serve --twin <questions.jsonl >replies 2>said
tell 'serve with the two files exchanged' 0 $?

fresh
"$program" restore || complain 'the spare was not made'
chmod 400 answers.spare
"$program" serve --twin <questions.jsonl >replies 2>said
tell_unwritten 'serve, when nobody may write the spare' 19 $?
[ ! -s replies ] || complain 'serve sent a reply over a spare that may only be read'

# A file that nobody called so can't be written over by a link.
fresh
printf 'v\n1\n2\n' >small.csv
ln -s small.csv answers.spare
for command in restore compact; do
    "$program" "$command" >sent 2>said
    tell "$command over a link to a small file" 19 $?
    [ ! -s sent ] || complain "$command sent something"
done
[ "$(cat small.csv)" = "$(printf 'v\n1\n2')" ] || complain 'what the link leads to was written'

# What strace traces: the calls of the system on the journals, their names and their folder.
on_journals='-P answers.journal -P answers.spare -P .'

# A fresh folder with questions, another question, and the journal in which the latter is answered.
prepare() {
    fresh && cp "$top/asked" "$top/other" "$top/answered.journal" . && "$1"
}

# Lists each call of a run, with which one of its name it is, in the order in which they are made.
list_calls() {
    strace -o trace $on_journals "$program" $1 <asked >sent 2>said || complain "$1 failed: $(cat said)"
    sed -n 's/^\([a-z0-9_]*\)(.*/\1/p' trace | awk '{ print $1, ++count[$1] }'
}

# Starts a run, and waits until it has stopped after a call.
stop_after() {
    strace -D -o trace $on_journals -e "inject=$1:signal=STOP:when=$2" "$program" $3 <asked >sent 2>said &
    run=$!
    await grep -qs 'stopped by SIGSTOP' trace
}

# Lets the stopped run go on, and sets `status` to what it ends with.
go_on() {
    kill -CONT "$run"
    wait "$run"
    status=$?
}

# Has a run of the command `$2` stop after each of its calls in turn, each in a fresh folder that `$3` changes. While it is stopped
# `$4` meddles, and `$5` checks what came of it, and counts the runs that were refused.
at_each_call() {
    calls=0
    refused=0
    prepare "$3"
    list_calls "$2" >"$top/calls"
    while read -r call number <&3; do
        prepare "$3"
        stop_after "$call" "$number" "$2"
        "$4"
        go_on
        calls=$((calls + 1))
        "$5" "$1, after call $calls"
    done 3<"$top/calls"
    [ "$refused" -gt 0 ] && [ "$refused" -lt "$calls" ] || complain "$1: $refused of $calls were refused"
    printf '  %-60s      stopped at each of %s calls, refused %s times\n' "$1" "$calls" "$refused"
}

no_journal() { rm answers.journal; }
lost_journal() { mv answered.journal answers.spare && rm answers.journal; }
lost_spare() { mv answered.journal answers.journal; }
both_journals() { mv answered.journal answers.journal && cp answers.journal answers.spare; }

# Another run makes the journal, and a third one answers a question.
make_journal() {
    "$program" init 2>refusal
    made=$?
    "$program" serve <other >answered 2>>refusal
    cp answers.journal seen
}

# If the other run made the journal then it has the answer that left, and the stopped run was refused. If not, nothing left.
check_journal() {
    case $made:$status in
        0:6 | 0:8 | 0:22)
            refused=$((refused + 1))
            cmp -s answers.journal seen || complain "the journal was written over: $1"
            [ "$(records answers.journal)" = 1 ] && [ -s answered ] || complain "the other run has not answered: $1"
            ;;
        6:0) [ ! -s answered ] || complain "an answer left without a journal: $1" ;;
        *) complain "the other run ended with $made, the stopped one with $status: $1" ;;
    esac
}

# Somebody puts a file there, if there is none.
put_spare() {
    ln made.journal answers.spare 2>refusal
    made=$?
}

# What somebody put there is as it was, and the stopped run was refused.
check_spare() {
    case $made:$status in
        0:18 | 0:19 | 0:22)
            refused=$((refused + 1))
            cmp -s answers.spare made.journal || complain "the spare was written over: $1"
            ;;
        1:0) cmp -s answers.spare answers.journal || complain "the spare is another: $1" ;;
        *) complain "the file was put there with $made, and the run ended with $status: $1" ;;
    esac
}

# Somebody puts a copy in the place of the spare.
copy_spare() {
    cp answers.spare copy.spare && mv copy.spare answers.spare
}

# Each answer that left has its record in the files of both names, and the next run goes on.
check_answers() {
    case $status in
        0) ;;
        19) refused=$((refused + 1)) ;;
        *) complain "the run ended with $status: $1" ;;
    esac
    for file in answers.journal answers.spare; do
        [ "$(records $file)" -gt "$(wc -l <sent)" ] || complain "$file lacks an answer that left: $1"
    done
    "$program" serve --twin <other >replies 2>said || complain "the next run failed: $1"
}

if strace -o "$top/trace" true 2>"$top/refusal"; then
    echo '{"ask":"sum","column":"salary","where":"age >= 41"}' >"$top/other"
    printf '{"ask":"sum","column":"salary","where":"%s"}\n' all "team = 'Design' or age >= 41" >"$top/asked"
    fresh
    "$program" serve <"$top/other" >replies 2>said || complain 'serve failed'
    mv answers.journal "$top/answered.journal"
    at_each_call 'init, and another init makes the journal' init no_journal make_journal check_journal
    at_each_call 'restore, and init makes the lost journal' restore lost_journal make_journal check_journal
    at_each_call 'restore, and somebody puts a spare there' restore lost_spare put_spare check_spare
    at_each_call 'compact, and somebody puts a spare there' compact lost_spare put_spare check_spare
    at_each_call 'serve --twin, and a copy is put over the spare' 'serve --twin' both_journals copy_spare check_answers
else
    echo '  skipped: no run was stopped at its calls, for strace cannot trace here'
fi

conclude

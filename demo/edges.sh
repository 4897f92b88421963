#!/bin/sh
# Brings the program to ends that files, terminals and pipes give it, and prints for each what it ended with and what it
# said. Ends with 0 if each is the one that STATUSES.md names. If no program is given it is the one that run.sh built in the
# source.
#
#   demo/edges.sh [PROGRAM]
#
# Then it runs replace.sh, which puts a compacted journal in the journal's place, with a second journal and without, kills it between each
# two of its steps, and lets other runs come between.
#
# As root it also tries a full disk and one that may only be read, by small file systems in memory, and folders that the program may
# not write.
set -u
. "$(dirname "$0")/ends.sh"

echo "  end                                                          status  text"

fresh
"$program" serve <questions.jsonl >&- 2>said
tell 'standard output is closed' 6 $?

fresh
"$program" serve <&- >replies 2>said
tell_unwritten 'standard input is closed' 0 $?

fresh
"$program" serve <&- >&- 2>&-
tell_unwritten 'all three are closed' 0 $?

# What has the number of a closed output, once the journal is open.
if [ -d /proc/self/fd ]; then
    fresh
    mkfifo lines
    "$program" serve <lines >&- 2>said &
    run=$!
    exec 4>lines
    has_journal() { ls -l "/proc/$run/fd" | grep -q 'answers.journal$'; }
    await has_journal
    number_1=$(readlink "/proc/$run/fd/1")
    exec 4>&-
    wait "$run"
    tell_unwritten 'standard output is closed, and nothing is asked' 0 $?
    [ "$number_1" = /dev/null ] || complain "$number_1 has the number of the closed output"
fi

# No text may go into the journal, which would otherwise be opened under the number of a closed stream.
fresh
"$program" init <&- >&- 2>&-
tell_unwritten 'all three are closed, at init over a journal' 8 $?

fresh
printf X | dd of=answers.journal bs=1 seek=3 conv=notrunc 2>/dev/null
cp answers.journal made.journal
"$program" serve <&- >&- 2>&-
tell_unwritten 'all three are closed, the journal is damaged' 9 $?

fresh
"$program" serve <questions.jsonl >/dev/full 2>said
tell 'standard output is a full disk' 6 $?

fresh
"$program" explain <questions.jsonl >/dev/full 2>said
tell_unwritten 'standard output is a full disk, at explain' 6 $?
"$program" explain <questions.jsonl >&- 2>said
tell_unwritten 'standard output is closed, at explain' 6 $?

fresh
"$program" serve <. >replies 2>said
tell_unwritten 'standard input is a folder' 5 $?

fresh
mkfifo pipe
(exec 3<pipe) &
exec 3>pipe
wait $!
"$program" serve <questions.jsonl >&3 2>said
tell 'standard output is a pipe whose reader is gone' 6 $?
exec 3>&-

fresh
rm answers.journal
"$program" serve <questions.jsonl >replies 2>said
tell 'there is no journal' 7 $?
"$program" audit >report 2>said
tell 'there is no journal, at audit' 7 $?
"$program" explain <questions.jsonl >explained 2>said
tell 'there is no journal, at explain' 7 $?
[ ! -e answers.journal ] || complain 'a run that makes no journal made a file'

fresh
rm answers.journal && mkdir answers.journal
"$program" serve <questions.jsonl >replies 2>said
tell 'the journal is a folder' 6 $?
"$program" init 2>said
tell 'the journal is a folder, at init' 6 $?

fresh
rm answers.journal && mkfifo answers.journal
"$program" serve <questions.jsonl >replies 2>said
tell 'the journal is a named pipe' 6 $?
"$program" audit >report 2>said
tell 'the journal is a named pipe, at audit' 6 $?
"$program" explain <questions.jsonl >explained 2>said
tell 'the journal is a named pipe, at explain' 6 $?

fresh
open_run
cp answers.journal held.journal
for command in serve init audit explain; do
    "$program" "$command" <questions.jsonl >second 2>said
    tell "$command, while another run is open" 6 $?
    [ ! -s second ] || complain "$command sent something while another run was open"
done
cmp -s answers.journal held.journal || complain 'the second run wrote'
kill -9 "$run"
wait "$run" 2>/dev/null
exec 4>&-
"$program" serve <questions.jsonl >second 2>said
tell 'a run after one that was killed' 0 $?

fresh
{ (ulimit -f 0; exec "$program" serve <questions.jsonl >/dev/null); } 2>said
tell 'no file may grow (SIGXFSZ)' 153 $?
"$program" serve <questions.jsonl >replies 2>said
tell 'a run after that' 0 $?

# A pipe that waits for nothing, as many programs leave those of their children: it is empty, and then it is full.
if command -v python3 >/dev/null; then
    fresh
    mkfifo pipe
    exec 5<>pipe
    python3 -c 'import os; os.set_blocking(0, False)' <&5
    "$program" serve <&5 >replies 2>said
    tell_unwritten 'standard input is an empty pipe that waits for nothing' 5 $?
    yes '{"ask":"count","where":"all"}' | head -n 20000 >many.jsonl
    "$program" serve <many.jsonl >&5 2>said
    tell_unwritten 'standard output is a full pipe that waits for nothing' 6 $?
    exec 5>&-
fi

if can_be_nobody; then
    fresh
    as_nobody serve <questions.jsonl >replies 2>said
    tell_unwritten "the journal is another user's" 6 $?
    rm answers.journal
    as_nobody init 2>said
    tell "the folder may not be written, at init" 6 $?
    fresh
    chmod 600 table.csv
    as_nobody serve <questions.jsonl >replies 2>said
    tell_unwritten 'the table may not be read' 5 $?

    # The first question is a count, which needs no journal.
    fresh
    chmod 444 answers.journal
    as_nobody serve <questions.jsonl >replies 2>said
    tell_unwritten 'the journal may only be read, at serve' 6 $?
    [ ! -s replies ] || complain 'serve sent a reply over a journal that may only be read'
    as_nobody audit >report 2>said
    tell_unwritten 'the journal may only be read, at audit' 0 $?
    "$program" audit | cmp -s - report || complain 'that report is another one'
    as_nobody explain <questions.jsonl >explained 2>said
    tell_unwritten 'the journal may only be read, at explain' 0 $?
    "$program" explain <questions.jsonl | cmp -s - explained || complain 'those lines are other ones'

    # Two pages are left for the journal; the replies go elsewhere.
    fresh
    mkdir "$top/disk" && mount -t tmpfs -o size=64k tmpfs "$top/disk" 2>/dev/null && {
        cp schema.json table.csv answers.journal "$top/disk" && cd "$top/disk" || exit 1
        dd if=/dev/zero of=filler bs=4k count=13 2>/dev/null
        while dd if=/dev/zero bs=4k count=1 >>filler 2>/dev/null; do :; done
        yes '{"ask":"sum","column":"salary","where":"all"}' | head -n 1000 >"$top/run/many.jsonl"
        "$program" serve <"$top/run/many.jsonl" >"$top/run/replies" 2>"$top/run/said"
        status=$?
        cd "$top/run" && tell "the journal's disk is full, after $(wc -l <replies) replies" 6 $status
        rm "$top/disk/filler" && cd "$top/disk" && "$program" serve <"$top/run/questions.jsonl" >"$top/run/replies" 2>"$top/run/said"
        status=$?
        cd "$top/run" && tell 'the same, once it has room again' 0 $status
        mount -o remount,ro "$top/disk" 2>/dev/null && cd "$top/disk" || exit 1
        for command in serve init; do
            "$program" "$command" <"$top/run/questions.jsonl" >"$top/run/replies" 2>"$top/run/said"
            status=$?
            (cd "$top/run" && tell "the journal's disk may only be read, at $command" 6 $status)
            [ ! -s "$top/run/replies" ] || complain "$command sent a reply over a disk that may only be read"
        done
        "$program" audit >"$top/run/report" 2>"$top/run/said"
        status=$?
        (cd "$top/run" && tell 'the same, at audit' 0 $status)
        "$program" explain <"$top/run/questions.jsonl" >"$top/run/explained" 2>"$top/run/said"
        status=$?
        cd "$top/run" && tell 'the same, at explain' 0 $status
        umount "$top/disk"
    }
fi

# replace.sh, stopped between each two of its steps, and with a run that comes between. In a folder before the others of the path stands
# a script for a tool, which does something else first.
mkdir "$top/instead"

# Makes a tool, or the program, do something first if its arguments are these: `first TOOL ARGUMENTS COMMANDS`.
first() {
    tool=$(command -v "$1")
    name=$(basename "$1")
    {
        echo '#!/bin/sh'
        echo "case \"\$*\" in $2) $3 ;; esac"
        echo "exec '$tool' \"\$@\""
    } >"$top/instead/$name"
    chmod +x "$top/instead/$name"
}

# A fresh folder, in whose journal each answer stands twice, and beside it what is to be kept of that.
twice() {
    rm -f "$top/instead"/*
    fresh
    "$program" serve --batch 64 <questions.jsonl >/dev/null || complain 'the questions were not answered'
    cp answers.journal kept.journal
    "$program" serve <questions.jsonl >/dev/null || complain 'the questions were not answered again'
    cp answers.journal twice.journal
}

# Runs replace.sh, and reports its end by the first line that it said, which has to begin with this: `replacing NAME STATUS TEXT OPTION..`.
replacing() {
    name=$1 due=$2 text=$3
    shift 3
    by=$program
    [ ! -e "$top/instead/auditor" ] || by=$top/instead/auditor
    { PATH=$top/instead:$PATH "$demo/replace.sh" "$@" . "$by" >sent 2>all; } 2>/dev/null
    status=$?
    sed -n 's/^replace: //p' all | head -n 1 >said
    tell "$name" "$due" "$status"
    case $(cat said) in
    "$text"*) ;;
    *) complain "replace.sh said something else than '$text'" ;;
    esac
}

# Reports whether the journal is this one, and the program goes on over it.
stands() {
    cmp -s answers.journal "$1" || complain "answers.journal is not $1"
    "$program" serve <questions.jsonl | cmp -s - "$demo/replies.jsonl" || complain "other replies over $1"
}

twice
replacing 'the journal is replaced' 0 'answers.journal is compacted'
[ "$(cat sent)" = '{"records":12,"kept":6}' ] || complain "compact sent $(cat sent)"
cmp -s answers.journal.old twice.journal || complain 'answers.journal.old is not the journal of before'
[ ! -e answers.spare ] || complain 'a spare is left'
stands kept.journal

killed='kill -9 $PPID; exit'
for step in 'sync *old' 'auditor compact' 'flock *' 'cmp *' 'mv *' 'sync *.' 'auditor serve'; do
    twice
    tool=${step%% *}
    [ "$tool" != auditor ] || tool=$program
    first "$tool" "${step#* }" "$killed"
    replacing "it is killed before: $step" 137 ''
    rm "$top/instead"/*
    case $step in
    'sync *.' | 'auditor serve') cmp -s answers.journal kept.journal || complain 'the journal is not the compacted one' ;;
    *) cmp -s answers.journal twice.journal || complain 'the journal is another one' ;;
    esac
    replacing '  and is run again' 1 'answers.journal.old is already there'
    rm -f answers.journal.old answers.spare
    replacing '  and once more, with these two removed' 0 'answers.journal is compacted'
    stands kept.journal
done

twice
open_run
cp answers.journal twice.journal
replacing 'a run has the journal open' 1 'auditor compact ended with code 6'
end_run
[ "$status" = 0 ] || complain 'the open run was disturbed'

# Each of these asks for a sum more, or tries to.
more='echo "{\"ask\":\"sum\",\"column\":\"salary\",\"where\":\"all\"}"'
twice
first flock '*' "$more | '$program' serve >more"
replacing 'a run answers before the journal is locked' 1 'Answers were given since'
[ "$(cat more)" = '{"sum":320500}' ] || complain 'that run had no answer'
cmp -s answers.journal.old twice.journal || complain 'answers.journal.old is not the journal of before'
[ "$(wc -c <answers.journal)" = $(($(wc -c <twice.journal) + 12)) ] || complain 'the journal lacks that answer'
rm -f "$top/instead"/* answers.journal.old answers.spare
replacing '  and again, once it has ended' 0 'answers.journal is compacted'

twice
mkfifo lines
exec 4<>lines
echo '{"ask":"count","where":"all"}' >&4
first flock '*' "'$program' serve <lines >first 4>&- & echo \$! >run; while [ ! -s first ]; do sleep 0.05; done"
replacing 'a run has it open when it is to be locked' 1 'A run has answers.journal open'
kill "$(cat run)" || complain 'no run had it open'
exec 4>&-
cmp -s answers.journal twice.journal || complain 'the journal is another one'

twice
first mv '*' "$more | '$program' serve >more 2>refused"
replacing 'a run comes once it is locked' 0 'answers.journal is compacted'
[ ! -s more ] && [ "$(cat refused)" = 'journal or output failed' ] || complain 'that run was not refused'
stands kept.journal

# The same with a second journal, which is written anew at the end.
pair() {
    twice
    "$program" restore || complain 'the spare was not made'
    cp answers.spare spare.before
}

are_twins() {
    stands kept.journal
    "$program" serve --twin </dev/null || complain 'the two journals are no twins'
    [ "$(records answers.journal)" = "$(records answers.spare)" ] || complain 'the spare lacks a record'
}

pair
replacing 'the journal of twins is replaced' 0 'answers.journal is compacted' --twin
[ "$(cat sent)" = '{"records":12,"kept":6}' ] || complain "compact sent $(cat sent)"
cmp -s answers.spare.old spare.before || complain 'answers.spare.old is not the spare of before'
cmp -s answers.journal answers.spare || complain 'the spare is not the compacted journal'
are_twins
replacing '  and again' 1 'answers.journal.old is already there' --twin

pair
mkdir elsewhere && mv answers.spare elsewhere && ln -s elsewhere/answers.spare answers.spare
replacing 'the spare is a link' 0 'answers.journal is compacted' --twin
cmp -s elsewhere/answers.spare.old spare.before || complain 'what the link led to is not there any more'
[ -L answers.spare ] && cmp -s answers.journal elsewhere/answers.spare || complain 'the link does not lead to the compacted journal'
are_twins

for step in 'auditor serve*--twin' 'sync *old' 'mv *spare.old' 'auditor compact' 'flock *' 'cmp *' 'mv *journal' 'sync *.' 'auditor serve' 'auditor restore'; do
    pair
    tool=${step%% *}
    [ "$tool" != auditor ] || tool=$program
    first "$tool" "${step#* }" "$killed"
    replacing "with twins it is killed before: $step" 137 '' --twin
    rm "$top/instead"/*
    case $step in
    'sync *.' | 'auditor serve' | 'auditor restore') cmp -s answers.journal kept.journal || complain 'the journal is not the compacted one' ;;
    *) cmp -s answers.journal twice.journal || complain 'the journal is another one' ;;
    esac
    rm -f answers.journal.old answers.spare answers.spare.old
    "$program" restore || complain 'the spare was not restored'
    replacing '  and is run again, with the spare restored' 0 'answers.journal is compacted' --twin
    are_twins
done

pair
"$program" serve --twin <questions.jsonl >/dev/null || complain 'the twins were not asked'
cp twice.journal answers.journal
replacing 'the journal lacks what the spare has' 0 'answers.journal is compacted' --twin
are_twins

pair
printf X | dd of=answers.spare bs=1 seek=3 conv=notrunc 2>/dev/null
replacing 'the spare is damaged' 1 'auditor serve --twin ended with code 20' --twin
cmp -s answers.journal twice.journal || complain 'the journal was replaced'
rm answers.spare
replacing 'there is no spare' 1 'there is no answers.spare' --twin

twice
cp answers.journal answers.spare
replacing 'a spare stands' 1 'answers.spare is already there'
rm answers.spare
chmod 400 answers.journal
replacing 'a run could not sync the journal' 1 "Nobody may write answers.journal"
mv answers.journal elsewhere
ln -s elsewhere answers.journal
replacing 'the journal is a link' 2 'there is no answers.journal'
cmp -s elsewhere twice.journal || complain 'what the link leads to was written'

conclude

#!/bin/sh
# Puts a compacted journal in the journal's place: copies answers.journal to answers.journal.old and syncs the copy, has `auditor
# compact` write answers.spare, renames it over answers.journal if that still equals the copy and no run has it open, and syncs the
# folder. Each step has to succeed; otherwise it stops there, and says what stands and what to do. At every moment answers.journal is
# the old journal or the whole compacted one, and no answer that was given is missing in it.
#
# With --twin the journal has a second one, answers.spare, which `serve --twin` keeps. Both are first brought to one history. The spare
# is given the name answers.spare.old before compact runs, and at the end `auditor restore` writes it anew from the compacted journal. If
# answers.spare is a link, it is the file that it leads to that gets `.old` after its name.
#
#   demo/replace.sh [--twin] [FOLDER [PROGRAM]]
#
# FOLDER is the one that the program works in, the current one if none is given. PROGRAM is the auditor to run; if none is given it is
# $AUDITOR, or `auditor` in the path. The exit status is 0 if the journal was replaced, 1 if it is as it was, 2 if the arguments are wrong,
# and 3 if it was replaced and a later step failed. It needs flock (util-linux).
set -eu

journal=answers.journal
copy=answers.journal.old
spare=answers.spare
aside=answers.spare.old

# Says why it stops, and ends with this status: `stop STATUS LINE..`.
stop() {
    code=$1
    shift
    printf 'replace: %s\n' "$@" >&2
    exit "$code"
}

# Stops before anything is replaced.
stop_before() {
    if [ -e "$aside" ] || [ -L "$aside" ]; then
        stop 1 "$1" "$journal is as it was, and nothing is lost. To begin again, remove $copy and $spare, and rename $aside to $spare."
    fi
    stop 1 "$1" "$journal is as it was, and nothing is lost. To begin again, remove $copy and $spare."
}

# Stops after the journal was replaced, and before its twin is there again.
stop_without_twin() {
    stop 3 "$1" "$journal is the compacted one, and $spare isn't written yet: the journal alone has what was answered." \
        "Mend the cause. If $spare or $aside is a link, give what it leads to another name, and the link the name $spare." \
        "If $spare is a file, give it another name. Then run auditor restore."
}

usage='usage: replace.sh [--twin] [FOLDER [PROGRAM]]'
twin=
case ${1:-} in
-h | --help) echo "$usage" && exit 0 ;;
--twin) twin=--twin && shift ;;
-*) stop 2 "$usage" ;;
esac
[ $# -le 2 ] || stop 2 "$usage"
folder=${1:-.}
named=${2:-${AUDITOR:-auditor}}

for tool in flock cmp sync; do
    command -v "$tool" >/dev/null || stop 2 "$tool is missing"
done
program=$(command -v "$named") || stop 2 "there is no program $named: give it after the folder"
case $program in
/*) ;;
*) program=$PWD/$program ;;
esac
cd -- "$folder" || stop 2 "there is no folder $folder"
if [ ! -f "$journal" ] || [ -L "$journal" ]; then
    stop 2 "there is no $journal in $folder"
fi
case $(ls -ld -- "$journal") in
-?w*) ;;
*) stop 1 "Nobody may write $journal: a run couldn't sync it. KEEPING.md says what to do." ;;
esac
if [ -e "$copy" ] || [ -L "$copy" ]; then
    stop 1 "$copy is already there: an earlier replacing was stopped, or left it." \
        "$journal is in force, whichever it is. Give the copy another name, or remove it, and begin again."
fi
if [ -z "$twin" ] && { [ -e "$spare" ] || [ -L "$spare" ]; }; then
    stop 1 "$spare is already there, and may lack answers that were given since it was written." \
        "If it is the second journal, which serve --twin keeps, give --twin. Otherwise never put it in the journal's place by hand:" \
        "remove it, and begin again."
fi

# Where the second journal is, and what it is called once it is out of the way.
if [ -n "$twin" ]; then
    [ -f "$spare" ] || stop 1 "there is no $spare: run auditor restore first"
    there=$spare
    [ ! -L "$spare" ] || there=$(readlink -- "$spare")
    for name in "$aside" "$there.old"; do
        if [ -e "$name" ] || [ -L "$name" ]; then
            stop 1 "$name is already there: an earlier replacing was stopped, or left it." \
                "If $spare is there too, give $name another name, or remove it. If it isn't, rename $name to $spare. Then begin again."
        fi
    done
    # A spare that is a group ahead brings the journal up; journals that differ stop here.
    "$program" serve --twin </dev/null || stop 1 "auditor serve --twin ended with code $?: STATUSES.md says for each code what to do." \
        "$journal and $spare are as that left them, and nothing is lost."
fi

# The copy is made only if nothing has its name, and is for the owner alone, as the journal is.
(umask 077 && set -C && cat -- "$journal" >"$copy") || stop_before "$journal can't be copied to $copy."
sync -- "$copy" || stop_before "$copy can't be synced."
if [ -n "$twin" ]; then
    mv -T -- "$spare" "$aside" || stop_before "$spare can't be renamed."
fi

"$program" compact || stop_before "auditor compact ended with code $?: STATUSES.md says for each code what to do."
if [ ! -s "$spare" ] || [ -L "$spare" ]; then
    stop_before "auditor compact left no $spare."
fi

# The lock is held until the journal has its new file: no run writes the old one meanwhile. A journal only grows, so if it still equals
# the copy, which is older than the spare, then the spare has all of it.
exec 9<"$journal"
flock -n 9 || stop_before "A run has $journal open: wait until it has ended."
[ /proc/self/fd/9 -ef "$journal" ] || stop_before "$journal was exchanged meanwhile."
cmp -s -- "$copy" "$journal" || stop_before "Answers were given since $journal was copied, and $spare lacks them."
mv -T -- "$spare" "$journal" || stop_before "$spare can't be renamed."
exec 9<&-

sync -- . || stop 3 "$journal is the compacted one, and a power cut may still bring back the old one, since the folder can't be synced." \
    "The next run over it syncs the folder first, and ends with code 6 if it can't. $copy is as it was before."
"$program" serve </dev/null || stop 3 "$journal is the compacted one, and auditor serve ended with code $? over it." \
    "STATUSES.md says for each code what to do. As long as no answer was given since, $copy may be put back."

# The second journal is written anew over the compacted one: in the place of its name, or where a link leads.
if [ -n "$twin" ]; then
    if [ -L "$aside" ]; then
        mv -T -- "$there" "$there.old" || stop_without_twin "$there can't be renamed."
        mv -T -- "$aside" "$spare" || stop_without_twin "$aside can't be renamed to $spare."
    fi
    "$program" restore || stop_without_twin "auditor restore ended with code $?: STATUSES.md says for each code what to do."
    "$program" serve --twin </dev/null || stop_without_twin "auditor serve --twin ended with code $?."
fi
printf 'replace: %s\n' "$journal is compacted, and $copy is what it was before." "Never put that back once an answer was given since." >&2
if [ -n "$twin" ]; then
    [ -L "$spare" ] && aside=$there.old
    printf 'replace: %s\n' "$spare is its twin again, and $aside what that was before." >&2
fi

#!/bin/sh
# Keeps two journals on two disks, the second by a link, and prints what the runs end with and say if one disk is full, may only be read,
# isn't there, or goes away while a run is open. Ends with 0 if each end is the one that STATUSES.md names, and each of the two files
# alone has the record of every answer that left, as long as its disk is there.
#
#   demo/two_disks.sh [PROGRAM]
#
# The disks are small file systems in memory, and a loop device is the one that goes away. It takes root, and says what it doesn't try.
set -u
. "$(dirname "$0")/ends.sh"

backing=$top/backing
device=
trap 'umount "$top/disk" 2>/dev/null; [ -z "$device" ] || losetup -d "$device"; rm -rf "$top"' EXIT

# An empty disk of 64 KiB, and a folder on it.
put_disk() {
    mkdir -p "$top/disk" && mount -t tmpfs -o size=64k tmpfs "$top/disk" 2>/dev/null && mkdir "$top/disk/folder"
}

# The same on a loop device, whose size can be made nothing.
put_device() {
    truncate -s 8M "$backing" && mkfs.ext4 -q -F "$backing" 2>/dev/null &&
        device=$(losetup -f --show "$backing" 2>/dev/null) && mkdir -p "$top/disk" &&
        mount "$device" "$top/disk" 2>/dev/null && mkdir "$top/disk/folder"
}

take_disk() {
    umount "$top/disk" || complain 'the disk is busy'
    if [ -n "$device" ]; then losetup -d "$device" && device= && rm -f "$backing"; fi
}

lose_device() {
    truncate -s 0 "$backing" && losetup -c "$device" || complain 'the device stays'
}

# Leaves room for some dozen records.
fill_disk() {
    dd if=/dev/zero of="$top/disk/filler" bs=4k count=13 2>/dev/null
    while dd if=/dev/zero bs=4k count=1 >>"$top/disk/filler" 2>/dev/null; do :; done
}

# A fresh folder with a journal, and a spare in another folder, which the first folder has a link to.
twins_at() {
    rm -rf "$1/answers.spare"
    ln -s "$1/answers.spare" answers.spare
    "$program" restore || complain 'the spare was not made'
    cmp -s answers.journal answers.spare || complain 'the spare is another one'
}

# A fresh folder whose spare is on the disk, or that is on the disk while the spare is elsewhere.
spare_on_disk() {
    fresh
    yes '{"ask":"sum","column":"salary","where":"all"}' | head -n 6000 >many.jsonl
    twins_at "$top/disk/folder"
}

journal_on_disk() {
    fresh
    yes '{"ask":"sum","column":"salary","where":"all"}' | head -n 6000 >"$top/many.jsonl"
    mkdir -p "$top/elsewhere"
    cp schema.json table.csv questions.jsonl answers.journal "$top/disk/folder" && cd "$top/disk/folder" || exit 1
    twins_at "$top/elsewhere"
}

# Complains if one of the two files lacks the record of a reply that left: each line of `many.jsonl` makes one.
have_all() {
    for file in answers.journal answers.spare; do
        [ "$(records "$file")" -ge "$1" ] || complain "$file has $(records "$file") records, and $1 replies left"
    done
}

are_even() {
    "$program" serve --twin </dev/null || complain 'the next run failed'
    [ "$(records answers.journal)" = "$(records answers.spare)" ] || complain 'the next run did not bring both to one history'
}

# Runs a command in the folder at hand with this input, and reports its end: `ends NAME STATUS INPUT COMMAND..`.
ends() {
    name=$1 due=$2 asked=$3
    shift 3
    "$program" "$@" <"$asked" >"$top/replies" 2>"$top/said"
    status=$?
    (cd "$top" && tell "$name" "$due" "$status") || exit 1
    [ "$due" = "$status" ] || wrong=$((wrong + 1))
}

nothing_left() {
    [ ! -s "$top/replies" ] || complain 'a reply left'
}

echo "  two disks                                                    status  text"

mkdir "$top/elsewhere"
fresh
twins_at "$top/elsewhere"
ends 'the spare is elsewhere' 0 questions.jsonl serve --twin
cmp -s "$top/replies" "$demo/replies.jsonl" || complain 'other replies'
[ -L answers.spare ] && [ "$(stat -c %a "$top/elsewhere/answers.spare")" = 600 ] || complain 'the spare is not where the link leads'
[ "$(records answers.journal)" = "$(records answers.spare)" ] || complain 'the spare lacks a record'
rm answers.journal
ends 'then the journal is lost' 7 questions.jsonl serve --twin
ends '  and restored' 0 /dev/null restore
cmp -s answers.journal "$top/elsewhere/answers.spare" || [ "$(records answers.journal)" = "$(records answers.spare)" ] || complain 'another journal was restored'
ends '  and served' 0 questions.jsonl serve --twin
cmp -s "$top/replies" "$demo/replies.jsonl" || complain 'other replies after that'
rm "$top/elsewhere/answers.spare"
ends 'the spare is lost' 20 questions.jsonl serve --twin
nothing_left
ends '  and restored' 0 /dev/null restore
ends '  and restored again' 22 /dev/null restore
are_even

fresh
mkdir -p elsewhere.d third.d
ln -s ../third.d/answers.spare elsewhere.d/answers.spare
ln -s elsewhere.d/answers.spare answers.spare
ends 'the link leads to a link' 19 /dev/null restore
rm elsewhere.d/answers.spare && mkdir elsewhere.d/answers.spare
ends 'the link leads to a folder' 19 /dev/null restore
rmdir elsewhere.d/answers.spare
rm answers.spare && ln -s elsewhere.d/other.name answers.spare
ends 'the link leads to another name' 19 /dev/null restore
rm answers.spare && ln -s answers.journal answers.spare
ends 'the link leads to the journal' 19 /dev/null restore
ends '  at serve' 19 questions.jsonl serve --twin
nothing_left
rm answers.spare && ln -s no_disk/answers.spare answers.spare
ends 'the folder that the link leads to is not there' 19 /dev/null restore
ends '  at serve' 19 questions.jsonl serve --twin
nothing_left
cmp -s answers.journal made.journal || complain 'the journal was written'

fresh
twins_at "$top/elsewhere"
open_run --twin
rm answers.spare && ln -s elsewhere.d/answers.spare answers.spare
end_run
tell 'the link is changed while a run is open' 19 "$status"
[ "$(wc -l <first)" = 3 ] && [ "$(records answers.journal)" = 2 ] || complain 'a reply left after that'

if put_disk; then
    spare_on_disk
    fill_disk
    ends "the spare's disk is full" 19 many.jsonl serve --twin
    have_all "$(wc -l <"$top/replies")"
    ends '  without the spare' 0 questions.jsonl serve
    rm "$top/disk/filler"
    ends '  once it has room again' 0 questions.jsonl serve --twin
    are_even
    mount -o remount,ro "$top/disk"
    ends "the spare's disk may only be read" 19 questions.jsonl serve --twin
    nothing_left
    ends '  at restore' 19 /dev/null restore
    take_disk
    ends "the spare's disk is not there" 19 questions.jsonl serve --twin
    nothing_left
    ends '  at restore' 19 /dev/null restore
    [ -z "$(ls -A "$top/disk")" ] || complain 'something was made in place of the disk'
    put_disk
    ends '  and an empty one is put in its place' 20 questions.jsonl serve --twin
    ends '  the spare is restored there' 0 /dev/null restore
    ends '  and served' 0 questions.jsonl serve --twin
    have_all "$(records answers.journal)"
    take_disk

    put_disk
    journal_on_disk
    fill_disk
    ends "the journal's disk is full" 6 "$top/many.jsonl" serve --twin
    have_all "$(wc -l <"$top/replies")"
    rm "$top/disk/filler"
    ends '  once it has room again' 0 questions.jsonl serve --twin
    are_even
    mount -o remount,ro "$top/disk"
    ends "the journal's disk may only be read" 6 questions.jsonl serve --twin
    nothing_left
    cd "$top" && take_disk
else
    echo "not tried: disks that are full, may only be read or are not there, which take root"
fi

if put_device; then
    spare_on_disk
    open_run --twin
    lose_device
    end_run
    tell "the spare's disk goes away while a run is open" 19 "$status"
    [ "$(wc -l <first)" = 3 ] || complain "$(wc -l <first) replies left, not 3"
    [ "$(records answers.journal)" = 2 ] || complain 'the journal has not two records'
    ends '  the next run' 19 questions.jsonl serve --twin
    nothing_left
    take_disk
    rm answers.spare && ln -s "$top/elsewhere/answers.spare" answers.spare && rm -f "$top/elsewhere/answers.spare"
    ends '  the spare is restored elsewhere' 0 /dev/null restore
    ends '  and served' 0 questions.jsonl serve --twin
    are_even

    put_device
    journal_on_disk
    cp schema.json table.csv questions.jsonl "$top/run"
    open_run --twin
    exec 5<first
    lose_device
    end_run
    cp /dev/null "$top/said"
    (cd "$top" && tell "the journal's disk goes away while a run is open" 6 "$status")
    [ "$status" = 6 ] || wrong=$((wrong + 1))
    exec 5<&-
    cd "$top/run" && take_disk
    rm answers.journal && ln -s "$top/elsewhere/answers.spare" answers.spare
    ends '  the journal is restored on another disk' 0 /dev/null restore
    [ "$(records answers.journal)" = 3 ] || complain "$(records answers.journal) records were restored, not 3"
    ends '  and served' 0 questions.jsonl serve --twin
    cmp -s "$top/replies" "$demo/replies.jsonl" || complain 'other replies over the restored journal'
    are_even
else
    echo "not tried: a disk that goes away, which takes root, loop devices and mkfs.ext4"
fi

conclude

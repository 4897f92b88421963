#!/bin/sh
# Runs `auditor explain` over the journal of a folder as it is now, while a run of `serve` that has it open goes on answering. It runs over a
# copy, in a folder of its own that is gone at the end. A copy that is read from front to back is a journal that stood at some moment since:
# its groups are written before the gates that open them. The table isn't copied.
#
#   front/explain.sh FOLDER PROGRAM
set -eu
[ $# = 2 ] || { echo "usage: explain.sh FOLDER PROGRAM" >&2; exit 2; }
folder=$(cd "$1" && pwd)
case $2 in
*/*) program=$(cd "$(dirname "$2")" && pwd)/$(basename "$2") ;;
*) program=$2 ;;
esac
copy=$(mktemp -d)
trap 'rm -rf "$copy"' EXIT
trap 'exit 1' HUP INT TERM
ln -s "$folder/schema.json" "$folder/table.csv" "$copy"
cat "$folder/answers.journal" >"$copy/answers.journal"
cd "$copy"
"$program" explain

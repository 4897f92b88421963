#!/bin/sh
# Makes the table of an office that doesn't exist in a fresh folder, and beside it one whose rows stand for 100,000 people; starts the door
# over both, and prints the address to open.
# Ctrl-C ends it and removes the folder. If no program is given it is the one that demo/run.sh has built, or the package's own: it builds none itself.
#
#   front/demo.sh [PROGRAM [PORT]]
set -u
usage() {
    cat <<'WORDS'
usage: front/demo.sh [PROGRAM [PORT]]     starts a front door over two tables of people who don't exist, and prints the address to open
It needs the built program, which demo/run.sh makes in the source and a package has, and python3-aiohttp. The port is 8087 if none is given.
It works in a folder that it removes. Ctrl-C ends it.
WORDS
}
case ${1-} in
-h | --help) usage; exit 0 ;;
-*) usage >&2; exit 2 ;;
esac
port=${2:-8087}
front=$(cd "$(dirname "$0")" && pwd)
python=/usr/bin/python3
if ! $python -c "import sys; sys.exit(sys.version_info < (3, 10))" 2>/dev/null; then
    echo "demo: the door needs a $python of 3.10 or later" >&2
    exit 1
fi
if ! $python -c "import aiohttp" 2>/dev/null; then
    echo "demo: the door needs aiohttp: apt-get install --no-install-recommends python3-aiohttp" >&2
    exit 1
fi
if [ $# -gt 0 ]; then
    program=$(realpath "$1")
    if [ ! -f "$program" ] || [ ! -x "$program" ]; then
        echo "demo: there is no program $1" >&2
        exit 1
    fi
elif [ -x "$front/../crates/auditor/out/auditor" ]; then
    program=$(realpath "$front/../crates/auditor/out/auditor")
elif [ -x "$front/../../../bin/auditor" ]; then
    program=$(realpath "$front/../../../bin/auditor")
elif [ -f "$front/../demo/build.sh" ]; then
    echo "demo: the program isn't built yet. demo/run.sh proves and builds it, half an hour or more the first time; then run this again" >&2
    exit 1
else
    echo "demo: give the program: demo.sh PROGRAM" >&2
    exit 1
fi

folder=$(mktemp -d) || exit 1
door=
finish() {
    [ -z "$door" ] || { kill "$door" 2>/dev/null; wait "$door"; }
    rm -rf "$folder"
}
trap finish EXIT
trap 'exit 0' INT TERM
begin() {
    (cd "$folder/$1" && "$program" init) || { echo "demo: auditor init ended with status $?" >&2; exit 1; }
}
$python "$front/demo_table.py" "$folder/office" || exit 1
begin office
AUDITOR=$program $python "$front/demo_people.py" "$folder/people" || exit 1
begin people
address=127.0.0.1:$port
$python "$front/door.py" --auditor "$program" --folder "$folder/{table}" --table office --table people --listen "$address" --report-every 5 &
door=$!
echo "open http://$address/ and end with Ctrl-C" >&2
wait "$door"

# Read by the scripts beside it: finds their folder and the built program, or the one that AUDITOR names, goes to a fresh folder that
# is gone at the end, and has what times a run.
set -u
here=$(cd "$(dirname "$0")" && pwd)
program=${AUDITOR:-$here/../crates/auditor/out/auditor}
if [ ! -x "$program" ]; then
    echo "bench: build the program first, as demo/run.sh does" >&2
    exit 1
fi

folder=$(mktemp -d) || exit 1
trap 'rm -rf "$folder"' EXIT
cd "$folder" || exit 1

# Runs a command over the file that `given` names, or over no input, and sets `seconds`, and `mebibytes` to its peak of memory.
measure() {
    begin=$(date +%s.%N)
    "$@" <"${given:-/dev/null}" &
    peak=0
    while kill -0 $! 2>/dev/null; do
        now=$(awk '/^VmHWM/ { print $2 }' /proc/$!/status 2>/dev/null)
        [ "${now:-0}" -gt "$peak" ] && peak=$now
        sleep 0.01
    done
    wait $! || return 1
    end=$(date +%s.%N)
    seconds=$(echo "$begin $end" | awk '{ printf "%.2f", $2 - $1 }')
    mebibytes=$(echo "$peak" | awk '{ printf "%.1f", $1 / 1024 }')
}
